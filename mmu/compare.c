/*
 * compare NAME RAM EXPECTED
 *
 * Compares what the stub recorded in the machine's memory with what was
 * expected, the reserved entries of the tables with those expected, and the
 * board's RAM after the run with the same before it. Prints one line about the
 * board NAME and ends with 0 if all agrees; otherwise prints a line for each of
 * the first ten differences and ends with 1. Ends with 2 if there is nothing to
 * compare.
 */
#include <stdio.h>
#include <stdlib.h>
#include <string.h>

#include "expected.h"
#include "layout.h"
#include "plan.h"

#define PAGE_WORDS 1024u
#define RESERVED   22u /* an entry of a stack page to come */

static void fail(const char *what)
{
    fprintf(stderr, "compare: %s\n", what);
    exit(2);
}

static void read_all(FILE *file, void *bytes, size_t length)
{
    if (fread(bytes, 1, length, file) != length)
        fail("a file is too short");
}

static FILE *open_file(const char *name)
{
    FILE *file = fopen(name, "rb");

    if (!file)
        fail("a file could not be opened");
    return file;
}

static void *allocate(size_t length)
{
    void *memory = malloc(length ? length : 1);

    if (!memory)
        fail("no memory");
    return memory;
}

static uint32_t *read_ram(FILE *file, uint32_t pages)
{
    uint32_t *ram = allocate((size_t)pages * PAGE_BYTES);

    read_all(file, ram, (size_t)pages * PAGE_BYTES);
    return ram;
}

/* ---------------------------------------------------- what was expected */

struct process_expected {
    uint8_t rights[VIRTUAL_PAGES];
    uint8_t *bytes; /* of the pages that are seen, rising */
    uint32_t seen;
};

struct expectation {
    struct expected head;
    uint8_t table[MAX_PAGES];
    uint32_t *ram; /* before the run */
    struct process_expected *process[MAX_PROCESSES];
};

static struct process_expected *read_process(FILE *file)
{
    struct process_expected *process = allocate(sizeof *process);

    read_all(file, process->rights, VIRTUAL_PAGES);
    process->seen = 0;
    for (uint32_t page = 0; page < VIRTUAL_PAGES; page++)
        process->seen += (process->rights[page] & SEEN_PAGE) != 0;
    process->bytes = allocate((size_t)process->seen * PAGE_BYTES);
    read_all(file, process->bytes, (size_t)process->seen * PAGE_BYTES);
    return process;
}

static void read_expectation(const char *name, struct expectation *expectation)
{
    FILE *file = open_file(name);

    read_all(file, &expectation->head, sizeof expectation->head);
    if (expectation->head.pages > MAX_PAGES
        || expectation->head.processes > MAX_PROCESSES)
        fail("the file of what is expected is damaged");
    read_all(file, expectation->table, expectation->head.pages);
    expectation->ram = read_ram(file, expectation->head.pages);
    for (uint32_t q = 0; q < expectation->head.processes; q++)
        expectation->process[q] = read_process(file);
    fclose(file);
}

/* By the manual: U sees only pages with the user right. S jumps only to pages
 * without it, and loads from and stores to pages with it only under SUM. */
static uint32_t outcome_expected(uint32_t rights, uint32_t mode)
{
    const int user = (rights & SEEN_USER) != 0;
    const int page = (rights & SEEN_PAGE) != 0;
    const int data = page && (mode == MODE_S_SUM || user == (mode == MODE_U));
    const int code = page && user == (mode == MODE_U);
    const int jump = code && (rights & SEEN_EXECUTE);
    const int load = data && (rights & SEEN_READ);
    const int store = data && (rights & SEEN_WRITE);

    return OUTCOME(jump ? CAUSE_JUMP_ACCESS_FAULT : CAUSE_JUMP_PAGE_FAULT,
                   load ? CAUSE_NONE : CAUSE_LOAD_PAGE_FAULT,
                   store ? CAUSE_NONE : CAUSE_STORE_PAGE_FAULT);
}

/* ------------------------------------------------------ what was recorded */

struct recorded {
    struct orders orders;
    uint32_t *word, *end;
    uint32_t *ram; /* after the run */
};

static void seek(FILE *file, uint32_t address)
{
    if (fseek(file, (long)(address - RAM_BASE), SEEK_SET) != 0)
        fail("a file is too short");
}

static void check_state(uint32_t state)
{
    if (state == STATE_DONE)
        return;
    fail(state == STATE_FULL ? "the stub had no room for its records"
         : state == STATE_BROKEN ? "the stub could not load all of a page"
         : state == STATE_TRAP ? "the stub trapped in its own code"
         : "the stub did not come to its end");
}

static void read_recorded(const char *name, uint32_t pages,
                          struct recorded *recorded)
{
    FILE *file = open_file(name);
    struct head head;
    size_t length;

    seek(file, ORDERS);
    read_all(file, &recorded->orders, sizeof recorded->orders);
    seek(file, RECORDS);
    read_all(file, &head, sizeof head);
    check_state(head.state);
    length = head.end - RECORDS - sizeof head;
    recorded->word = allocate(length);
    recorded->end = recorded->word + length / 4;
    read_all(file, recorded->word, length);
    seek(file, IMAGE);
    recorded->ram = read_ram(file, pages);
    fclose(file);
}

/* The next word that has to be there. */
static uint32_t take_word(struct recorded *recorded)
{
    if (recorded->word == recorded->end)
        fail("the records break off");
    return *recorded->word++;
}

static int next_is(const struct recorded *recorded, uint32_t kind)
{
    return recorded->word < recorded->end && *recorded->word == kind;
}

/* ----------------------------------------------------------- differences */

static unsigned long differences;

/* Virtual pages of which U loaded just flash's bytes. */
static uint32_t flash_pages;

/* Virtual pages that are reserved as expected. */
static uint32_t reserved_pages;

/* True for the first ten. */
static int differs(void)
{
    return differences++ < 10;
}

static const char *mode_name(uint32_t mode)
{
    static const char *const names[MODES] = { "S", "S with SUM", "U" };

    return names[mode];
}

static void print_probe(const char *what, uint32_t cause, uint32_t allowed,
                        uint32_t page_fault)
{
    if (cause == allowed)
        printf(" %s yes", what);
    else if (cause == page_fault)
        printf(" %s no", what);
    else
        printf(" %s cause %u", what, cause);
}

static void print_outcome(uint32_t outcome)
{
    print_probe("jump", outcome >> 24, CAUSE_JUMP_ACCESS_FAULT,
                CAUSE_JUMP_PAGE_FAULT);
    if ((outcome >> 24) != (outcome >> 16 & 0xFF))
        print_probe("then jump", outcome >> 16 & 0xFF, CAUSE_JUMP_ACCESS_FAULT,
                    CAUSE_JUMP_PAGE_FAULT);
    print_probe("load", outcome >> 8 & 0xFF, CAUSE_NONE, CAUSE_LOAD_PAGE_FAULT);
    print_probe("store", outcome & 0xFF, CAUSE_NONE, CAUSE_STORE_PAGE_FAULT);
}

static void outcome_differs(uint32_t process, uint32_t page, uint32_t mode,
                            uint32_t expected, uint32_t seen)
{
    if (!differs())
        return;
    printf("process %u address 0x%08X as %s: expected", process,
           page * PAGE_BYTES, mode_name(mode));
    print_outcome(expected);
    printf(", seen");
    print_outcome(seen);
    printf("\n");
}

static void bytes_differ(uint32_t process, uint32_t page, uint32_t mode,
                         const uint8_t *expected, const uint8_t *seen)
{
    uint32_t i = 0;

    while (expected[i] == seen[i])
        i++;
    if (differs())
        printf("process %u address 0x%08X as %s: expected byte 0x%02X,"
               " seen 0x%02X\n", process, page * PAGE_BYTES + i,
               mode_name(mode), expected[i], seen[i]);
}

/* ------------------------------------------------------------ comparison */

/* A pass, page by page. `bytes` stands at the next page that is seen. */
static void compare_pages(const struct expectation *expectation,
                          struct recorded *recorded, uint32_t process,
                          uint32_t mode)
{
    const struct process_expected *own = expectation->process[process - 1];
    const uint8_t *bytes = own->bytes;
    uint32_t seen = 0;

    for (uint32_t page = 0; page < VIRTUAL_PAGES; page++) {
        const uint32_t expected = outcome_expected(own->rights[page], mode);
        const uint32_t *loaded = NULL;

        if (next_is(recorded, RECORD_PAGE)
            && recorded->end - recorded->word > 2
            && recorded->word[1] == page * PAGE_BYTES) {
            seen = recorded->word[2];
            recorded->word += 3;
            if ((seen >> 8 & 0xFF) == CAUSE_NONE) {
                if (recorded->end - recorded->word < (long)PAGE_WORDS)
                    fail("the records break off");
                loaded = recorded->word;
                recorded->word += PAGE_WORDS;
            }
        }
        if (seen != expected)
            outcome_differs(process, page, mode, expected, seen);
        else if (loaded && memcmp(bytes, loaded, PAGE_BYTES) != 0)
            bytes_differ(process, page, mode, bytes, (const uint8_t *)loaded);
        else if (!loaded && (expected >> 8 & 0xFF) == CAUSE_NONE)
            fail("a page that can be loaded has no bytes in the records");
        else if (loaded && mode == MODE_U && own->rights[page] & SEEN_FLASH)
            flash_pages++;
        if (own->rights[page] & SEEN_PAGE)
            bytes += PAGE_BYTES;
    }
}

/* The entry for a virtual page as the tables had it before the run: the one in
 * the root table where that is no pointer into RAM. */
static uint32_t entry_of(const struct expectation *expectation, uint32_t satp,
                         uint32_t page)
{
    const uint32_t root = (satp & 0x3FFFFF) - IMAGE / PAGE_BYTES;
    uint32_t entry, leaf;

    if (root >= expectation->head.pages)
        fail("a root table is outside RAM");
    entry = expectation->ram[root * PAGE_WORDS + page / PAGE_WORDS];
    leaf = (entry >> 10) - IMAGE / PAGE_BYTES;
    if ((entry & 0xF) != 1 || leaf >= expectation->head.pages)
        return entry;
    return expectation->ram[leaf * PAGE_WORDS + page % PAGE_WORDS];
}

/* To an MMU reserved is absent, so no probe can tell them: the entries of one
 * process are read. */
static void compare_reserve(const struct expectation *expectation,
                            uint32_t process, uint32_t satp)
{
    const uint8_t *rights = expectation->process[process - 1]->rights;

    for (uint32_t page = 0; page < VIRTUAL_PAGES; page++) {
        const uint32_t entry = entry_of(expectation, satp, page);
        const int reserved = rights[page] == SEEN_RESERVED;

        if ((entry == RESERVED) == reserved)
            reserved_pages += reserved;
        else if (differs())
            printf("process %u address 0x%08X: expected %s, its entry is"
                   " 0x%08X\n", process, page * PAGE_BYTES,
                   reserved ? "reserved" : "not reserved", entry);
    }
}

/* The MMU sets accessed and dirty where they are clear, and stores put back
 * what was loaded. The loader has set both: no word of RAM may change. */
static uint32_t compare_ram(const struct expectation *expectation,
                            const struct recorded *recorded)
{
    static const char *const what[] = { "no table", "a root table",
                                        "a leaf table" };
    uint32_t changed = 0;

    for (uint32_t i = 0; i < expectation->head.pages * PAGE_WORDS; i++) {
        if (recorded->ram[i] == expectation->ram[i])
            continue;
        changed++;
        if (differs())
            printf("RAM at offset 0x%X, in %s, was 0x%08X, is 0x%08X after the"
                   " run\n", 4 * i, what[expectation->table[i / PAGE_WORDS]],
                   expectation->ram[i], recorded->ram[i]);
    }
    return changed;
}

/* QEMU 7.2 drops the two highest bits of an entry, those of addresses from
 * 2^32 on, so no probe can tell them. RAM ends there: they must be clear. */
static void compare_high_bits(const struct expectation *expectation)
{
    for (uint32_t i = 0; i < expectation->head.pages * PAGE_WORDS; i++) {
        const uint32_t entry = expectation->ram[i];

        if (expectation->table[i / PAGE_WORDS] == NO_TABLE || entry >> 30 == 0)
            continue;
        if (differs())
            printf("the entry at offset 0x%X of RAM is 0x%08X: an address"
                   " above RAM\n", 4 * i, entry);
    }
}

static void compare_pass(const struct expectation *expectation,
                         struct recorded *recorded, uint32_t process,
                         uint32_t mode)
{
    if (take_word(recorded) != RECORD_PASS || take_word(recorded) != process
        || take_word(recorded) != mode)
        fail("the records are damaged");
    compare_pages(expectation, recorded, process, mode);
}

static void compare_process(const struct expectation *expectation,
                            struct recorded *recorded, uint32_t process)
{
    for (uint32_t mode = 0; mode < MODES; mode++)
        compare_pass(expectation, recorded, process, mode);
    compare_reserve(expectation, process, recorded->orders.satp[process - 1]);
}

static void print_agreement(const char *name,
                            const struct expectation *expectation,
                            uint32_t changed)
{
    const uint32_t processes = expectation->head.processes;
    uint32_t seen = 0;

    for (uint32_t q = 0; q < processes; q++)
        seen += expectation->process[q]->seen;
    printf("board %s: %u processes, %u pages of RAM, %u virtual pages seen,"
           " %u of them in flash, %u reserved, %llu probes agree, %u words"
           " changed\n", name, processes, expectation->head.pages, seen,
           flash_pages, reserved_pages,
           3ull * MODES * VIRTUAL_PAGES * processes, changed);
}

int main(int argc, char **argv)
{
    static struct expectation expectation;
    struct recorded recorded;
    uint32_t changed;

    if (argc != 4)
        fail("usage: compare NAME RAM EXPECTED");
    read_expectation(argv[3], &expectation);
    read_recorded(argv[2], expectation.head.pages, &recorded);
    for (uint32_t process = 1; process <= expectation.head.processes; process++)
        compare_process(&expectation, &recorded, process);
    changed = compare_ram(&expectation, &recorded);
    compare_high_bits(&expectation);
    if (recorded.word != recorded.end)
        fail("there are records after the last pass");
    if (differences > 0) {
        printf("board %s: differences: %lu\n", argv[1], differences);
        return 1;
    }
    print_agreement(argv[1], &expectation, changed);
    return 0;
}
