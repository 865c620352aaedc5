/*
 * Tries cases of the second program on the bare machine: DATA has the file
 * that `compare --write` wrote (compare/case_file.rs has its form). Every
 * entry's answer, all of RAM, the walks, the bytes of pages, the writer's
 * buffer, and what lies around each lent area are compared. Ends with 1 if
 * anything differs.
 *
 * The file's second word is 0, or a damage that this program does itself, as a
 * wrong library would: a check of the check.
 */
#include "machine.h"
#include "rigpollen.h"

#define PAGE        RIGPOLLEN_PAGE_BYTES
#define GUARD       (PAGE + 64u) /* bytes around an area */
#define GUARD_BYTE  0xC3u
#define ROOM        8u           /* words lent at most */
#define AROUND      4u           /* words before and after them */
#define PATTERN     0xC3A50F00u
#define BESIDE      64u          /* bytes before and after a page's */
#define SHOWN       20u          /* differences that are told */
#define LISTS       3u           /* process, section and region records */

enum damage { NONE, PAST_RAM, BEFORE_RAM, BLOCK, FLASH, PAST_WORDS, STACK,
              PAST_BUFFER, LIST, PAGE_BYTE, PAST_PAGE };

/* An area to lend, with guard bytes on both sides, and what it must hold. */
struct area {
    uint8_t *bytes;
    uint32_t length;
};

struct words {
    uint32_t all[AROUND + ROOM + AROUND];
};

/* What a case says, as it stands in the file. */
struct head {
    uint32_t number, start, ram_length, block_length, flash_length;
    uint32_t flash_start;
    uint32_t answer[RIGPOLLEN_ANSWER_WORDS];
};

struct process {
    uint32_t process, number, count, words[RIGPOLLEN_LIST_WORDS];
};

struct walk {
    uint32_t root, address, number, words[RIGPOLLEN_WALK_WORDS];
    uint32_t length, area, offset; /* the page's bytes: where they are */
};

enum page_area { NO_AREA, RAM_AREA, FLASH_AREA };

/* RAM and flash for the reader. */
struct memory {
    struct area ram, flash;
    uint32_t ram_start, flash_start;
};

struct writing {
    uint32_t list_words[LISTS], buffer_length;
    uint32_t answer[RIGPOLLEN_WRITTEN_WORDS];
};

static enum damage damage;
static uint32_t at_case, loads, boots, walks, ram_pages, flash_pages, processes,
                writings, differences, deepest;

static void differ(const char *entry, const char *what, uint32_t expected,
                   uint32_t found)
{
    if (differences++ < SHOWN)
        print("case %u: %s: %s: expected %x, found %x\n", at_case, entry, what,
              expected, found);
}

void on_trap(uint32_t cause, uint32_t at, uint32_t value)
{
    print("case %u: trap %x at %x, %x\n", at_case, cause, at, value);
}

/* -------------------------------------------------------- areas and words */

static uint32_t whole_words(uint32_t length)
{
    return (length + 3) / 4 * 4;
}

static struct area make_area(uint8_t **room, uint32_t length, uint32_t shift)
{
    const struct area area = { *room + GUARD + shift, length };

    memset(*room, GUARD_BYTE, GUARD + shift);
    memset(area.bytes + length, GUARD_BYTE, GUARD);
    *room += whole_words(GUARD + shift + length + GUARD);
    if (*room > AREA_END) {
        print("case %u: no room for its areas\n", at_case);
        power_off(2);
    }
    return area;
}

static struct area lend(uint8_t **room, const uint8_t *bytes, uint32_t length,
                        uint32_t shift)
{
    const struct area area = make_area(room, length, shift);

    memcpy(area.bytes, bytes, length);
    return area;
}

static void check_guard(const char *entry, const char *what,
                        const uint8_t *bytes, uint32_t length)
{
    for (; length > 0 && *bytes == GUARD_BYTE; length--)
        bytes++;
    if (length != 0)
        differ(entry, what, GUARD_BYTE, *bytes);
}

static void check_guards(const char *entry, struct area area)
{
    check_guard(entry, "byte before an area", area.bytes - GUARD, GUARD);
    check_guard(entry, "byte after an area", area.bytes + area.length, GUARD);
}

static void check_bytes(const char *entry, const char *what,
                        const uint8_t *expected, const uint8_t *found,
                        uint32_t length)
{
    uint32_t i = 0;

    if (((uintptr_t)expected | (uintptr_t)found) % 4 == 0)
        while (i + 4 <= length && *(const uint32_t *)(expected + i)
                                      == *(const uint32_t *)(found + i))
            i += 4;
    while (i < length && expected[i] == found[i])
        i++;
    if (i < length)
        differ(entry, what, expected[i], found[i]);
}

static uint32_t pattern(uint32_t i)
{
    return PATTERN + i;
}

static uint32_t *make_words(struct words *words)
{
    for (uint32_t i = 0; i < AROUND + ROOM + AROUND; i++)
        words->all[i] = pattern(i);
    return words->all + AROUND;
}

/* `count` words put into an area of `room` words, and all else as it was. */
static void check_words(const char *entry, const struct words *words,
                        const uint32_t *expected, uint32_t count, uint32_t room)
{
    const uint32_t put = count < room ? count : room;

    for (uint32_t i = 0; i < AROUND + ROOM + AROUND; i++) {
        const uint32_t word = i >= AROUND && i < AROUND + put
                                  ? expected[i - AROUND] : pattern(i);

        if (words->all[i] != word)
            differ(entry, "word", word, words->all[i]);
    }
}

static void note_stack(uint32_t bytes)
{
    if (bytes > deepest)
        deepest = bytes;
}

/* --------------------------------------------------------------- the load */

static uint32_t dirt(uint32_t number, uint32_t k)
{
    return (k + number * 0x10001u) * 0x9E3779B1u;
}

static void make_dirty(struct area ram, uint32_t number)
{
    uint32_t i = 0;

    if ((uintptr_t)ram.bytes % 4 == 0)
        for (; i + 4 <= ram.length; i += 4)
            *(uint32_t *)(ram.bytes + i) = dirt(number, i / 4);
    for (; i < ram.length; i++)
        ram.bytes[i] = (uint8_t)(dirt(number, i / 4) >> 8 * (i % 4));
}

/* One page of RAM after the load; answers the place after it in the file. */
static const uint8_t *check_page(const char *entry, uint32_t number,
                                 struct area ram, uint32_t from,
                                 const uint8_t *after)
{
    static uint8_t page[PAGE] __attribute__((aligned(4)));
    const uint32_t kind = get_word(after);
    const uint32_t left = ram.length - from;
    const uint32_t length = left < PAGE ? left : PAGE;
    const uint8_t *expected = after + 4;

    if (kind != 2) {
        memset(page, 0, PAGE);
        for (uint32_t i = 0; kind == 0 && i < PAGE / 4; i++)
            ((uint32_t *)page)[i] = dirt(number, from / 4 + i);
        expected = page;
    }
    check_bytes(entry, "byte of RAM", expected, ram.bytes + from, length);
    return after + 4 + (kind == 2 ? whole_words(length) : 0);
}

static const uint8_t *check_ram(const char *entry, uint32_t number,
                                struct area ram, const uint8_t *after)
{
    for (uint32_t from = 0; from < ram.length; from += PAGE)
        after = check_page(entry, number, ram, from, after);
    check_guards(entry, ram);
    return after;
}

static void do_damage(struct area ram, struct words *words)
{
    switch (damage) {
    case PAST_RAM:
        ram.bytes[ram.length] ^= 1;
        break;
    case BEFORE_RAM:
        ram.bytes[-(int)PAGE] ^= 1;
        break;
    case PAST_WORDS:
        words->all[AROUND + ROOM] ^= 1;
        break;
    default:
        break;
    }
}

static void try_answer(const struct head *head, struct area block,
                       struct area flash, struct area ram)
{
    struct words words;
    uint32_t *const answer = make_words(&words);
    const uint32_t room = head->number % (ROOM + 1);
    uint32_t found;

    stack_mark();
    found = rigpollen_answer(block.bytes, block.length, flash.bytes,
                             flash.length, head->flash_start, ram.bytes,
                             ram.length, head->start, answer, room);
    note_stack(stack_used());
    do_damage(ram, &words);
    if (found != head->answer[0])
        differ("rigpollen_answer", "number", head->answer[0], found);
    check_words("rigpollen_answer", &words, head->answer,
                RIGPOLLEN_ANSWER_WORDS, room);
    loads++;
}

static void try_load(const struct head *head, struct area block,
                     struct area flash, struct area ram)
{
    uint32_t found;

    stack_mark();
    found = rigpollen_load(block.bytes, block.length, flash.bytes, flash.length,
                           head->flash_start, ram.bytes, ram.length,
                           head->start);
    if (damage == STACK)
        stack_pointer()[-(int)RIGPOLLEN_RV32_STACK_BYTES - 4] = 0;
    note_stack(stack_used());
    if (found != head->answer[0])
        differ("rigpollen_load", "number", head->answer[0], found);
    loads++;
}

/* ------------------------------------------------ the entries without RAM */

static void try_check(const struct head *head, struct area block,
                      struct area flash)
{
    struct words words;
    uint32_t *const answer = make_words(&words);
    const uint32_t room = (head->number + RIGPOLLEN_ANSWER_WORDS) % (ROOM + 1);
    uint32_t found;

    stack_mark();
    found = rigpollen_check(block.bytes, block.length, flash.bytes,
                            flash.length, head->flash_start, head->ram_length,
                            head->start, answer, room);
    note_stack(stack_used());
    if (found != head->answer[0])
        differ("rigpollen_check", "number", head->answer[0], found);
    check_words("rigpollen_check", &words, head->answer,
                RIGPOLLEN_ANSWER_WORDS, room);
}

static void try_process(const struct head *head, struct area block,
                        struct area flash, const struct process *process)
{
    struct words words;
    uint32_t *const list = make_words(&words);
    const uint32_t room = (head->number + process->process) % (ROOM + 1);
    uint32_t found;

    stack_mark();
    found = rigpollen_process(block.bytes, block.length, flash.bytes,
                              flash.length, head->flash_start,
                              head->ram_length, head->start, process->process,
                              list, room);
    note_stack(stack_used());
    if (found != process->number)
        differ("rigpollen_process", "number", process->number, found);
    check_words("rigpollen_process", &words, process->words, process->count,
                room);
    processes++;
}

/* ------------------------------------------------------------- the reader */

static void try_walk(const struct memory *memory, const struct walk *walk)
{
    struct words words;
    uint32_t *const page = make_words(&words);
    const uint32_t room = walks % 4;
    uint32_t found;

    if (walks % 16 == 0)
        stack_mark();
    found = rigpollen_walk(memory->ram.bytes, memory->ram.length,
                           memory->ram_start, walk->root, walk->address, page,
                           room);
    if (walks % 16 == 0)
        note_stack(stack_used());
    if (found != walk->number)
        differ("rigpollen_walk", "number", walk->number, found);
    check_words("rigpollen_walk", &words, walk->words,
                walk->number == RIGPOLLEN_WALK_PAGE ? RIGPOLLEN_WALK_WORDS : 0,
                room);
    walks++;
}

/* `put` bytes of the page at the start of the area, and all else as it was. */
static void check_page_bytes(const struct memory *memory,
                             const struct walk *walk, struct area area,
                             uint32_t put)
{
    const struct area from = walk->area == RAM_AREA ? memory->ram
                                                    : memory->flash;

    area.bytes[0] ^= damage == PAGE_BYTE && put > 0;
    area.bytes[put] ^= damage == PAST_PAGE;
    check_bytes("rigpollen_page", "byte of the page", from.bytes + walk->offset,
                area.bytes, put);
    check_guard("rigpollen_page", "byte before the page's", area.bytes - BESIDE,
                BESIDE);
    check_guard("rigpollen_page", "byte after the page's", area.bytes + put,
                area.length - put);
}

static void try_page(const struct memory *memory, const struct walk *walk)
{
    static uint8_t all[BESIDE + 4 + PAGE + BESIDE];
    static const uint32_t rooms[] = { PAGE, 0, PAGE - 1, 1, PAGE + 1, 5 };
    const uint32_t room = rooms[walks % 6], shift = walks / 6 % 4;
    const struct area area = { all + BESIDE + shift, PAGE + BESIDE };
    uint64_t found;

    memset(all, GUARD_BYTE, sizeof all);
    if (walks % 16 == 0)
        stack_mark();
    found = rigpollen_page(memory->ram.bytes, memory->ram.length,
                           memory->ram_start, memory->flash.bytes,
                           memory->flash.length, memory->flash_start,
                           walk->root, walk->address, area.bytes, room);
    if (walks % 16 == 0)
        note_stack(stack_used());
    if (found != walk->length)
        differ("rigpollen_page", "length", walk->length, (uint32_t)found);
    check_page_bytes(memory, walk, area, walk->area == NO_AREA ? 0
                                         : room < PAGE ? room : PAGE);
    ram_pages += walk->area == RAM_AREA;
    flash_pages += walk->area == FLASH_AREA;
}

static const uint8_t *try_walks(const struct memory *memory,
                                const uint8_t *next)
{
    const uint32_t count = get_word(next);
    const struct walk *walk = (const struct walk *)(next + 4);

    for (uint32_t i = 0; i < count; i++, walk++) {
        try_page(memory, walk);
        try_walk(memory, walk);
    }
    return (const uint8_t *)walk;
}

/* An area's start, length and bytes; answers the place after them. */
static const uint8_t *read_area(const uint8_t *next, uint8_t **room,
                                uint32_t *start, struct area *area)
{
    const uint32_t length = get_word(next + 4);

    *start = get_word(next);
    *area = lend(room, next + 8, length, at_case % 4);
    return next + 8 + whole_words(length);
}

/* Tables that no loader writes, with any RAM and any flash. */
static const uint8_t *try_odd_tables(const uint8_t *next, uint8_t *room)
{
    const uint8_t *const ram_bytes = next + 8, *flash_bytes;
    struct memory memory;

    next = read_area(next, &room, &memory.ram_start, &memory.ram);
    flash_bytes = next + 8;
    next = read_area(next, &room, &memory.flash_start, &memory.flash);
    next = try_walks(&memory, next);
    check_bytes("the reader", "byte of RAM", ram_bytes, memory.ram.bytes,
                memory.ram.length);
    check_bytes("the reader", "byte of flash", flash_bytes, memory.flash.bytes,
                memory.flash.length);
    check_guards("the reader", memory.ram);
    check_guards("the reader", memory.flash);
    return next;
}

/* ------------------------------------------------------------- the writer */

static void call_writer(const struct writing *writing,
                        const struct area lists[LISTS], struct area buffer)
{
    struct words words;
    uint32_t *const answer = make_words(&words);
    const uint32_t room = (at_case + writings + RIGPOLLEN_WRITTEN_WORDS)
                          % (ROOM + 1);
    uint32_t found;

    stack_mark();
    found = rigpollen_write_block((const uint32_t *)lists[0].bytes,
                                  writing->list_words[0],
                                  (const uint32_t *)lists[1].bytes,
                                  writing->list_words[1],
                                  (const uint32_t *)lists[2].bytes,
                                  writing->list_words[2],
                                  buffer.bytes, buffer.length, answer, room);
    note_stack(stack_used());
    if (found != writing->answer[0])
        differ("rigpollen_write_block", "number", writing->answer[0], found);
    check_words("rigpollen_write_block", &words, writing->answer,
                RIGPOLLEN_WRITTEN_WORDS, room);
    writings++;
}

/* The block at the start of the buffer, and the rest as it was. */
static void check_buffer(struct area buffer, const uint8_t *block,
                         uint32_t length, uint8_t *room)
{
    const struct area expected = make_area(&room, buffer.length, 0);

    make_dirty(expected, at_case);
    memcpy(expected.bytes, block, length);
    buffer.bytes[buffer.length] ^= damage == PAST_BUFFER;
    check_bytes("rigpollen_write_block", "byte of the buffer", expected.bytes,
                buffer.bytes, buffer.length);
    check_guards("rigpollen_write_block", buffer);
}

/* One call; answers the place after it in the file. */
static const uint8_t *try_writing(const uint8_t *next, uint8_t *room)
{
    const struct writing *const writing = (const struct writing *)next;
    const uint32_t length = writing->answer[RIGPOLLEN_WRITTEN_LENGTH];
    const uint8_t *words[LISTS];
    struct area lists[LISTS], buffer;

    next += sizeof *writing;
    for (uint32_t i = 0; i < LISTS; i++) {
        words[i] = next;
        lists[i] = lend(&room, next, 4 * writing->list_words[i], 0);
        next += lists[i].length;
    }
    buffer = make_area(&room, writing->buffer_length, at_case / 4 % 4);
    make_dirty(buffer, at_case);
    call_writer(writing, lists, buffer);
    check_buffer(buffer, next, length, room);
    lists[0].bytes[0] ^= damage == LIST;
    for (uint32_t i = 0; i < LISTS; i++) {
        check_bytes("rigpollen_write_block", "byte of a list", words[i],
                    lists[i].bytes, lists[i].length);
        check_guards("rigpollen_write_block", lists[i]);
    }
    return next + length;
}

static const uint8_t *try_writings(const uint8_t *next, uint8_t *room)
{
    const uint32_t count = get_word(next);

    next += 4;
    for (uint32_t i = 0; i < count; i++)
        next = try_writing(next, room);
    return next;
}

/* --------------------------------------------------------------- the case */

static const uint8_t *try_processes(const struct head *head, struct area block,
                                    struct area flash, const uint8_t *next)
{
    const uint32_t count = get_word(next);
    const struct process *process = (const struct process *)(next + 4);

    for (uint32_t i = 0; i < count; i++)
        try_process(head, block, flash, process++);
    return (const uint8_t *)process;
}

/* Block and flash are as they were. */
static void check_lent(struct area block, const uint8_t *block_bytes,
                       struct area flash, const uint8_t *flash_bytes)
{
    block.bytes[0] ^= damage == BLOCK;
    flash.bytes[0] ^= damage == FLASH;
    check_bytes("all entries", "byte of the block", block_bytes, block.bytes,
                block.length);
    check_bytes("all entries", "byte of flash", flash_bytes, flash.bytes,
                flash.length);
    check_guards("all entries", block);
    check_guards("all entries", flash);
}

/* Answers the place of the next case. */
static const uint8_t *try_case(const uint8_t *next)
{
    const struct head *const head = (const struct head *)next;
    const uint8_t *const list = next + sizeof *head;
    const uint8_t *const tables = list + 4
                                  + get_word(list) * sizeof(struct process);
    const uint8_t *const block_bytes = tables + 4
                                       + get_word(tables) * sizeof(struct walk);
    const uint8_t *const flash_bytes = block_bytes
                                       + whole_words(head->block_length);
    const uint8_t *const after = flash_bytes + whole_words(head->flash_length);
    /* Any alignment will do; a large RAM off its words is slow to compare. */
    const uint32_t shift = head->ram_length < 32 * PAGE ? head->number % 4 : 0;
    uint8_t *room = AREA;
    struct area block, flash, ram;

    at_case = head->number;
    boots += head->answer[0] == RIGPOLLEN_LOADED;
    block = lend(&room, block_bytes, head->block_length, head->number / 4 % 4);
    flash = lend(&room, flash_bytes, head->flash_length, head->number / 16 % 4);
    ram = make_area(&room, head->ram_length, shift);

    make_dirty(ram, head->number);
    try_answer(head, block, flash, ram);
    try_walks(&(struct memory){ ram, flash, head->start, head->flash_start },
              tables);
    check_ram("rigpollen_answer", head->number, ram, after);
    make_dirty(ram, head->number);
    try_load(head, block, flash, ram);
    next = check_ram("rigpollen_load", head->number, ram, after);
    try_check(head, block, flash);
    try_processes(head, block, flash, list);
    check_lent(block, block_bytes, flash, flash_bytes);
    return try_writings(try_odd_tables(next, room), room);
}

int main(void)
{
    const uint32_t cases = get_word(DATA);
    const uint8_t *next = DATA + 8;

    damage = (enum damage)get_word(DATA + 4);
    for (uint32_t i = 0; i < cases; i++)
        next = try_case(next);
    if (deepest > RIGPOLLEN_RV32_STACK_BYTES)
        differ("all entries", "bytes of stack", RIGPOLLEN_RV32_STACK_BYTES,
               deepest);
    print("%u cases, %u boot, %u loads, %u processes, %u walks, %u pages of "
          "RAM and %u of flash, %u writings, stack %u bytes, %u differences\n",
          cases, boots, loads, processes, walks, ram_pages, flash_pages,
          writings, deepest, differences);
    return cases == 0 || differences != 0;
}
