/*
 * boot TURNS LIMIT: the time of a load of each board, by the proved loader, by
 * the two plain Rust loaders, and by memset and memcpy of its bytes alone. A
 * figure is the median of TURNS loads of the large board, and of a hundred
 * times as many of another, in microseconds. In each turn each of them loads
 * once, into RAM that was made dirty before.
 *
 * boot BOARD: loads the board of this number once by each loader, for a tool
 * that counts instructions, and prints its name.
 *
 * Ends with 1 where the large board takes the proved loader over LIMIT times
 * as long as plain Rust, and with 2 where two loaders differ in an answer or
 * in a byte of RAM: after any timed load; for any block that the small board's
 * becomes when one of its bytes is changed, or when it has a stack of another
 * size and a section that ends there, or that of the users from flash when one
 * of its bits is changed; and for any image of theirs in which a zero is
 * changed or that ends somewhat earlier.
 */
#define _POSIX_C_SOURCE 200809L
#include "board.h"
#include "loaders.h"

#include <stdio.h>
#include <stdlib.h>
#include <string.h>
#include <time.h>

#define RAM_START 0x80000000u
#define DIRT      0xA5
#define TURNS_MAX 1000
#define OTHERS    100 /* turns of another board for one of the large board */

/* What is timed: the loaders; memset and memcpy, page by page; and parts of a
 * load: the checks, memset of each stretch that is cleared, and memcpy, page by
 * page. */
enum { PROVED, PLAIN, FORMS, LOADERS, FLOOR = LOADERS, CHECKS, SET, COPY, TIMED };

static struct block block;
static uint8_t *ram, *flash, *loaded; /* `loaded`: RAM as the proved loader left it */
static uint64_t ram_bytes;
static uint32_t answers[LOADERS][RIGPOLLEN_ANSWER_WORDS];
static double times[TIMED][TURNS_MAX * OTHERS];
static double medians[BOARDS][TIMED];

/* A page that a load writes: `count` bytes of flash from `from` on are copied
 * to its byte `at`. */
static struct page {
    uint32_t number, at, from, count;
} pages[RAM_PAGES_MAX];
static uint32_t page_count;

/* The bytes of RAM that are cleared: from `from` up to `to`. */
static struct stretch {
    uint32_t from, to;
} stretches[2 * RAM_PAGES_MAX];
static uint32_t stretch_count;

static void *area(void)
{
    void *bytes = aligned_alloc(PAGE, RAM_PAGES_MAX * PAGE);

    if (bytes == NULL)
        exit(2);
    return bytes;
}

static void fail(const char *board, const char *what)
{
    fprintf(stderr, "boot: %s: %s\n", board, what);
    exit(2);
}

/* ---------------------------------------------- the pages of a load */

/* A stretch below all others; the lowest is made longer where the two touch. */
static void list_stretch(uint32_t from, uint32_t to)
{
    if (from == to)
        return;
    if (stretch_count > 0 && stretches[stretch_count - 1].from == to)
        stretches[stretch_count - 1].from = from;
    else
        stretches[stretch_count++] = (struct stretch){ from, to };
}

/* The next lower page. */
static void list_page(uint32_t at, uint32_t from, uint32_t count)
{
    const uint32_t number = (uint32_t)(ram_bytes / PAGE) - TOP_PAGES - 1 - page_count;

    pages[page_count++] = (struct page){ number, at, from, count };
    list_stretch(number * PAGE + at + count, (number + 1) * PAGE);
    list_stretch(number * PAGE, number * PAGE + at);
}

static void list_section(uint32_t n)
{
    const uint32_t record = block.sections_at + 16 * n;
    const uint32_t address = block_word(&block, record), from = block_word(&block, record + 8);
    const uint32_t size = block.straight[n] ? 0 : block_word(&block, record + 4);
    const int copied = (block_word(&block, record + 12) & NOCOPY) == 0;
    uint32_t done = 0;

    while (done < size) {
        const uint32_t at = (address + done) % PAGE;
        const uint32_t count = size - done < PAGE - at ? size - done : PAGE - at;

        list_page(at, from + done, copied ? count : 0);
        done += count;
    }
}

/* All pages of a load that takes so many. The kernel's sections are the first
 * records, and come last. */
static void list_pages(uint32_t taken)
{
    const uint32_t kernel = block_word(&block, 32 + 8);

    page_count = stretch_count = 0;
    for (uint32_t n = kernel; n < block.sections; n++)
        list_section(n);
    for (uint32_t n = 0; n < kernel; n++)
        list_section(n);
    while (page_count < taken - TOP_PAGES)
        list_page(0, 0, 0);
}

static void set_around(const struct page *p)
{
    uint8_t *to = ram + (size_t)p->number * PAGE;
    const uint32_t end = p->at + p->count;

    if (p->at > 0)
        memset(to, 0, p->at);
    if (end < PAGE)
        memset(to + end, 0, PAGE - end);
}

static void copy_into(const struct page *p)
{
    if (p->count > 0)
        memcpy(ram + (size_t)p->number * PAGE + p->at, flash + p->from, p->count);
}

/* ---------------------------------------------- what is timed */

static void run(int which)
{
    uint32_t *answer = which < LOADERS ? answers[which] : NULL;
    uint32_t words[RIGPOLLEN_ANSWER_WORDS];

    switch (which) {
    case PROVED:
        rigpollen_answer(block.bytes, block.length, flash, block.flash_length, FLASH_START, ram, ram_bytes,
                         RAM_START, answer, RIGPOLLEN_ANSWER_WORDS);
        break;
    case PLAIN:
        plain_load(block.bytes, block.length, flash, block.flash_length, FLASH_START, ram, ram_bytes,
                   RAM_START, answer);
        break;
    case FORMS:
        plain_forms_load(block.bytes, block.length, flash, block.flash_length, FLASH_START, ram, ram_bytes,
                         RAM_START, answer);
        break;
    case FLOOR:
        for (uint32_t i = 0; i < page_count; i++) {
            set_around(&pages[i]);
            copy_into(&pages[i]);
        }
        break;
    case CHECKS:
        rigpollen_check(block.bytes, block.length, flash, block.flash_length, FLASH_START, ram_bytes, RAM_START,
                        words, RIGPOLLEN_ANSWER_WORDS);
        break;
    case SET:
        for (uint32_t i = 0; i < stretch_count; i++)
            memset(ram + stretches[i].from, 0, stretches[i].to - stretches[i].from);
        break;
    case COPY:
        for (uint32_t i = 0; i < page_count; i++)
            copy_into(&pages[i]);
        break;
    }
}

/* ---------------------------------------------- turns */

static void touch(const volatile uint8_t *bytes, uint64_t count)
{
    for (uint64_t i = 0; i < count; i += 64)
        (void)bytes[i];
}

/* Makes RAM dirty. Whatever was done before, the caches are left alike. */
static void prepare(void)
{
    touch(loaded, ram_bytes);
    touch(flash, block.flash_length);
    memset(ram, DIRT, ram_bytes);
}

/* A loader leaves what the proved one left. */
static void see_same(const char *board, int which)
{
    if (memcmp(answers[which], answers[PROVED], sizeof answers[which]) != 0)
        fail(board, "the answers differ");
    if (memcmp(ram, loaded, ram_bytes) != 0)
        fail(board, "RAM differs");
}

/* The proved loader's answer and RAM. */
static void load_proved(void)
{
    prepare();
    run(PROVED);
    memcpy(loaded, ram, ram_bytes);
}

static double microseconds(void)
{
    struct timespec now;

    clock_gettime(CLOCK_MONOTONIC, &now);
    return 1e6 * (double)now.tv_sec + 1e-3 * (double)now.tv_nsec;
}

static double timed(int which)
{
    double before;

    prepare();
    before = microseconds();
    run(which);
    return microseconds() - before;
}

static int compare(const void *a, const void *b)
{
    const double x = *(const double *)a, y = *(const double *)b;

    return (x > y) - (x < y);
}

static void make_board(int board)
{
    make_block(&block, &boards[board].board);
    make_flash(flash, &block);
    ram_bytes = (uint64_t)boards[board].ram_pages * PAGE;
}

static void measure(int board, int turns)
{
    make_board(board);
    load_proved();
    if (answers[PROVED][RIGPOLLEN_ANSWER_NUMBER] != RIGPOLLEN_LOADED)
        fail(boards[board].name, "refused");
    list_pages(answers[PROVED][RIGPOLLEN_ANSWER_TAKEN]);
    for (int n = 0; n < turns; n++)
        for (int which = 0; which < TIMED; which++) {
            times[which][n] = timed(which);
            if (which < LOADERS)
                see_same(boards[board].name, which);
        }
    for (int which = 0; which < TIMED; which++) {
        qsort(times[which], (size_t)turns, sizeof times[which][0], compare);
        medians[board][which] = times[which][turns / 2];
    }
}

/* Loads once by each loader. */
static void load_all(const char *board)
{
    load_proved();
    for (int which = PLAIN; which < LOADERS; which++) {
        prepare();
        run(which);
        see_same(board, which);
    }
}

/* Every block that differs from the small board's in one byte. */
static void try_changed_blocks(void)
{
    make_board(SMALL_BOARD);
    for (uint32_t at = 0; at < block.length; at++)
        for (int change = 1; change < 256; change++) {
            block.bytes[at] ^= (uint8_t)change;
            load_all("small board with a byte changed");
            block.bytes[at] ^= (uint8_t)change;
        }
}

/* The small board with every size of process 2's stack; its second section
 * ends right below the stack, or one byte in it. */
static void try_changed_stacks(void)
{
    make_board(SMALL_BOARD);
    for (uint32_t bits = 0; bits < 256; bits++) {
        const uint32_t pages = bits == 0 ? RIGPOLLEN_STACK_PAGES_DEFAULT : bits;
        const uint32_t below = RIGPOLLEN_STACK_POINTER - (pages + 1) * PAGE;
        const uint32_t kind_word = bits << RIGPOLLEN_STACK_SHIFT;

        put_words(block.bytes + 32 + 16 + 12, &kind_word, 1);
        for (uint32_t address = below; address < below + 2; address++) {
            put_words(block.bytes + block.sections_at + 2 * 16, &address, 1);
            load_all("small board with its stack changed");
        }
    }
}

/* Every block that differs from that of the users from flash in one bit; every
 * image that has a 1 for a zero; and images of up to 100 bytes less. */
static void try_changed_flash_users(void)
{
    make_board(FLASH_USERS);
    for (uint32_t at = 0; at < block.length; at++)
        for (int change = 1; change < 256; change *= 2) {
            block.bytes[at] ^= (uint8_t)change;
            load_all("users from flash with a bit changed");
            block.bytes[at] ^= (uint8_t)change;
        }
    for (uint32_t at = 0; at < block.flash_length; at++)
        if (flash[at] == 0) {
            flash[at] = 1;
            load_all("users from flash with a byte of flash changed");
            flash[at] = 0;
        }
    for (int less = 0; less < 100; less++) {
        block.flash_length--;
        load_all("users from flash with less flash");
    }
}

/* ---------------------------------------------- the tables */

static void tell_ratios(void)
{
    printf("%-24s %9s %9s %9s %9s   %s\n", "microseconds", "proved", "plain", "forms", "floor",
           "proved to plain, to forms, to floor");
    for (int i = 0; i < BOARDS; i++) {
        const double *m = medians[i];

        printf("%-24s %9.2f %9.2f %9.2f %9.2f   %8.2f %9.2f %9.2f\n", boards[i].name, m[PROVED], m[PLAIN],
               m[FORMS], m[FLOOR], m[PROVED] / m[PLAIN], m[PROVED] / m[FORMS], m[PROVED] / m[FLOOR]);
    }
}

static void tell_parts(void)
{
    printf("%-24s %9s %9s %9s %9s\n", "parts of proved", "checks", "memset", "memcpy", "rest");
    for (int i = 0; i < BOARDS; i++) {
        const double *m = medians[i];

        printf("%-24s %9.2f %9.2f %9.2f %9.2f\n", boards[i].name, m[CHECKS], m[SET], m[COPY],
               m[PROVED] - m[CHECKS] - m[SET] - m[COPY]);
    }
}

static int load_once(int board)
{
    if (board < 0 || board >= BOARDS)
        return 1;
    make_board(board);
    load_all(boards[board].name);
    printf("%s\n", boards[board].name);
    return 0;
}

static int compare_all(int turns, const char *limit)
{
    double ratio;

    if (turns < 1 || turns > TURNS_MAX)
        return 2;
    try_changed_blocks();
    try_changed_stacks();
    try_changed_flash_users();
    for (int i = 0; i < BOARDS; i++)
        measure(i, i == LARGE_BOARD ? turns : OTHERS * turns);
    tell_ratios();
    tell_parts();
    ratio = medians[LARGE_BOARD][PROVED] / medians[LARGE_BOARD][PLAIN];
    printf("boot: ratio %.2f (limit %s)\n", ratio, limit);
    return ratio > atof(limit);
}

int main(int argc, char **argv)
{
    ram = area();
    loaded = area();
    flash = area();
    memset(loaded, 0, RAM_PAGES_MAX * PAGE);
    if (argc == 2)
        return load_once(atoi(argv[1]));
    return argc == 3 ? compare_all(atoi(argv[1]), argv[2]) : 2;
}
