#include "board.h"

#include <string.h>

#include "plan.h"

/* ------------------------------------------------------------- the block */

static uint8_t *put(uint8_t *at, uint32_t word)
{
    for (int i = 0; i < 4; i++)
        at[i] = (uint8_t)(word >> 8 * i);
    return at + 4;
}

size_t write_block(const struct board *board, uint8_t block[MAX_BLOCK])
{
    const uint32_t p = board->processes, s = board->sections, r = board->regions;
    const uint32_t sections_at = 32 + 16 * p, regions_at = sections_at + 16 * s;
    const uint32_t header[8] = { 1, regions_at + 8 * r, p, 32,
                                 s, sections_at, r, regions_at };
    uint8_t *at = block;

    for (int i = 0; i < 8; i++)
        at = put(at, header[i]);
    for (uint32_t i = 0; i < p; i++) {
        at = put(at, board->process[i].entry);
        at = put(at, board->process[i].first);
        at = put(at, board->process[i].count);
        at = put(at, board->process[i].kind_word);
    }
    for (uint32_t i = 0; i < s; i++) {
        at = put(at, board->section[i].address);
        at = put(at, board->section[i].size);
        at = put(at, board->section[i].offset);
        at = put(at, board->section[i].flags);
    }
    for (uint32_t i = 0; i < r; i++) {
        at = put(at, board->region[i].start);
        at = put(at, board->region[i].pages);
    }
    return (size_t)(at - block);
}

/* --------------------------------------------------------- random numbers */

struct random {
    uint64_t state;
};

/* splitmix64 */
static uint64_t next(struct random *random)
{
    uint64_t z = random->state += 0x9E3779B97F4A7C15u;

    z = (z ^ z >> 30) * 0xBF58476D1CE4E5B9u;
    z = (z ^ z >> 27) * 0x94D049BB133111EBu;
    return z ^ z >> 31;
}

/* From low to high, both included. */
static uint32_t between(struct random *random, uint32_t low, uint32_t high)
{
    return low + (uint32_t)(next(random) % ((uint64_t)high - low + 1));
}

static int one_in(struct random *random, uint32_t n)
{
    return between(random, 1, n) == 1;
}

static void fill(struct random *random, uint8_t *bytes, size_t length)
{
    for (size_t i = 0; i < length; i++)
        bytes[i] = (uint8_t)next(random);
}

void fill_random(uint8_t *bytes, size_t length, uint64_t seed)
{
    struct random random = { seed };

    fill(&random, bytes, length);
}

/* -------------------------------------------------------- flash and pages */

uint8_t machine_flash(const struct board *board, uint32_t offset)
{
    return (uint8_t)~board->flash[offset];
}

/* Where the page starts that holds the byte at an offset or address. */
static uint32_t page_of(uint32_t at)
{
    return at / PAGE_BYTES * PAGE_BYTES;
}

/* Where the section's last flash page ends. */
static uint32_t pages_end(const struct section *section)
{
    return page_of(section->offset + section->size - 1) + PAGE_BYTES;
}

/* Zero in a section's flash pages beside it. */
static void clear_beside(struct board *board, const struct section *section)
{
    const uint32_t first = page_of(section->offset);
    const uint32_t end = section->offset + section->size;

    memset(board->flash + first, 0, section->offset - first);
    memset(board->flash + end, 0, pages_end(section) - end);
}

/* As many pages as the board needs, if it has fewer. The tracker's size depends
 * on the pages, so the need is asked until it fits. */
static void give_pages(struct board *board)
{
    while (pages_needed(board) > board->pages)
        board->pages++;
}

/* -------------------------------------------------------- the small board */

void small_board(struct board *board)
{
    const struct board small = {
        .processes = 2, .sections = 3, .regions = 1,
        .process = { { 0xFFC00010, 0, 1, 0 }, { 0x00010020, 1, 2, 0 } },
        .section = { { 0xFFC00000, 256, 0, EXECUTABLE },
                     { 0x00010020, 64, 256, EXECUTABLE },
                     { 0x00020000, 4096, 0, NOCOPY | WRITABLE } },
        .region = { { 0xF0000000, 2 } },
        .flash_length = 320, .flash_start = 0x20000000,
        .pages = 16,
    };

    *board = small;
    fill_random(board->flash, board->flash_length, 1);
}

/* -------------------------------------------------------- the flash board */

/* Process 2 is of kind 1. Its first two sections are used straight from flash.
 * Of the others the offset does not agree; a byte before it is not zero; a
 * byte after it; the image ends in its page; it is writable. Process 3 has the
 * flash pages of the first as code, and again to read, in a 4 MiB block with
 * no other page. Process 4 has the same two sections and is of kind 0. */
void flash_board(struct board *board)
{
    const struct board made = {
        .processes = 4, .sections = 12, .regions = 1,
        .process = { { 0xFFC00010, 0, 1, 0 }, { 0x00010020, 1, 7, 1 },
                     { 0x00011020, 8, 2, 1 }, { 0x00011020, 10, 2, 0 } },
        .section = { { 0xFFC00000, 256, 0, EXECUTABLE },
                     { 0x00010020, 0x1F00, 0x1020, EXECUTABLE },
                     { 0x00020000, 4096, 0x3000, 0 },
                     { 0x00030020, 64, 0x4010, EXECUTABLE },
                     { 0x00040020, 64, 0x5020, 0 },
                     { 0x00050020, 64, 0x6020, EXECUTABLE },
                     { 0x00060000, 100, 0x7000, 0 },
                     { 0x00070000, 4096, 0x3000, WRITABLE },
                     { 0x00011020, 0x1F00, 0x1020, EXECUTABLE },
                     { 0x00400020, 0x1F00, 0x1020, 0 },
                     { 0x00011020, 0x1F00, 0x1020, EXECUTABLE },
                     { 0x00400020, 0x1F00, 0x1020, 0 } },
        .region = { { 0xF0000000, 2 } },
        .flash_length = 0x7064, .flash_start = FLASH,
    };

    *board = made;
    fill_random(board->flash, board->flash_length, 1);
    for (uint32_t i = 1; i < board->sections; i++)
        clear_beside(board, &board->section[i]);
    board->flash[0x501F] = 1;
    board->flash[0x6060] = 1;
    give_pages(board);
}

/* -------------------------------------------------------- the stack board */

/* The last section of each user process ends with the byte below its stack.
 * Those of processes 3 and 4 are used straight from flash. */
void stack_board(struct board *board)
{
    const struct board made = {
        .processes = 5, .sections = 7, .regions = 1,
        .process = { { 0xFFC00010, 0, 1, 0 }, { 0x00010020, 1, 2, 0x0400 },
                     { 0x7FFFD800, 3, 1, 0x0101 }, { 0x7FF00020, 4, 1, 0xFF01 },
                     { 0x00010020, 5, 2, 0 } },
        .section = { { 0xFFC00000, 256, 0, EXECUTABLE },
                     { 0x00010020, 64, 0x100, EXECUTABLE },
                     { 0x7FFFB000, 4096, 0, NOCOPY | WRITABLE },
                     { 0x7FFFD800, 0x1800, 0x1800, EXECUTABLE },
                     { 0x7FF00020, 0x0FE0, 0x3020, EXECUTABLE },
                     { 0x00010020, 64, 0x100, EXECUTABLE },
                     { 0x7FFEFFFF, 1, 0x100, WRITABLE } },
        .region = { { 0xF0000000, 2 } },
        .flash_length = 0x4000, .flash_start = FLASH,
    };

    *board = made;
    fill_random(board->flash, board->flash_length, 1);
    clear_beside(board, &board->section[3]);
    clear_beside(board, &board->section[4]);
    give_pages(board);
}

/* ------------------------------------------------------- generated boards */

/* Flash starts at most so many pages above FLASH. */
#define MOST_SHIFT ((FLASH_END - FLASH - MAX_FLASH) / PAGE_BYTES)

/* Virtual pages that a process's sections may lie in. */
struct range {
    uint32_t low, high; /* first page, page after the last */
};

static struct range range_of(const struct process *process)
{
    const struct range kernel = { 0xFFC00, 0xFFF00 };
    const struct range user = { 0x00001, STACK_END - stack_pages(process) };

    return process->first == 0 ? kernel : user;
}

/* Pages left free before a section that could start at `page`: none, so that
 * it touches the one before; a few; up to a 4 MiB block; up to all that `most`
 * allows; or so many that it starts on the last page of a 4 MiB block. */
static uint32_t gap(struct random *random, uint32_t page, uint32_t most)
{
    const uint32_t limits[4] = { 0, 3, 1023, most };
    const uint32_t kind = between(random, 0, 4);
    const uint32_t limit = kind == 4 ? 1023 - page % 1024 : limits[kind];
    const uint32_t high = limit < most ? limit : most;

    return kind == 4 ? high : between(random, 0, high);
}

/* A section's sub-page offset and size, for the pages it is to take. */
static void shape(struct random *random, struct section *section,
                  uint32_t page, uint32_t pages)
{
    const uint32_t kind = between(random, 0, 3);
    const uint32_t offset = kind == 0 ? 0 : kind == 1 ? 4095
                            : between(random, 0, 4095);
    const uint32_t most = pages * PAGE_BYTES - offset;
    const uint32_t least = pages == 1 ? 1 : most - PAGE_BYTES + 1;

    section->address = page * PAGE_BYTES + offset;
    section->size = one_in(random, 4) ? most : one_in(random, 4) ? least
                    : between(random, least, most);
}

/* Where a section's bytes come from; sections may share flash bytes. */
static void source(struct random *random, struct section *section,
                   uint32_t flash_length)
{
    const uint32_t last = flash_length - section->size;

    section->offset = section->flags & NOCOPY ? 0
                      : one_in(random, 4) ? last : between(random, 0, last);
}

/* An offset that agrees with the section's address, in whole pages of flash. */
static uint32_t agreeing(struct random *random, const struct board *board,
                         const struct section *section)
{
    const uint32_t within = section->address % PAGE_BYTES;
    const uint32_t last = (page_of(board->flash_length) - section->size
                           - within) / PAGE_BYTES;

    return within + PAGE_BYTES * (one_in(random, 4) ? last
                                  : between(random, 0, last));
}

/* Moves a section to the flash page in which the image ends. */
static void move_to_cut_page(const struct board *board, struct section *section)
{
    const uint32_t cut = board->flash_length % PAGE_BYTES;
    const uint32_t within = section->address % cut;

    section->address = page_of(section->address) + within;
    section->offset = page_of(board->flash_length) + within;
    if (section->size > cut - within)
        section->size = cut - within;
}

/* A byte that is not zero, from one offset on and before another: at an edge
 * or between, if there is any place. */
static void spoil(struct random *random, struct board *board, uint32_t from,
                  uint32_t end)
{
    if (from < end)
        board->flash[one_in(random, 3) ? from : one_in(random, 2) ? end - 1
                     : between(random, from, end - 1)] = 1;
}

/* The same in a process of kind 1: in turn with nothing but perhaps the flags
 * against its use straight from flash, and with one thing against it. */
static void source_of_kind_1(struct random *random, struct board *board,
                             struct section *section)
{
    enum { STRAIGHT, NOT_AGREEING, CUT, BYTE_BEFORE, BYTE_AFTER, KINDS };
    const uint32_t kind = board->sections % KINDS;

    source(random, section, board->flash_length);
    if (section->flags & NOCOPY)
        return;
    if (kind == CUT && board->flash_length % PAGE_BYTES != 0)
        move_to_cut_page(board, section);
    else if (kind != NOT_AGREEING)
        section->offset = agreeing(random, board, section);
    clear_beside(board, section);
    if (kind == BYTE_BEFORE)
        spoil(random, board, page_of(section->offset), section->offset);
    if (kind == BYTE_AFTER)
        spoil(random, board, section->offset + section->size,
              pages_end(section));
}

/* All six kinds of section in turn, so that each board has them all. */
static uint32_t flags_in_turn(uint32_t turn)
{
    static const uint32_t flags[6] = {
        EXECUTABLE, WRITABLE | NOCOPY, 0, WRITABLE, NOCOPY, EXECUTABLE | NOCOPY
    };
    return flags[turn % 6];
}

/* The code of all processes of kind 1 is the same, straight from flash. */
static void share_code(struct random *random, struct board *board,
                       struct section *code)
{
    const struct section *shared = &board->section[board->process[1].first];

    if (code == shared) {
        code->offset = agreeing(random, board, code);
        return;
    }
    code->address = page_of(code->address) + shared->address % PAGE_BYTES;
    code->size = shared->size;
    code->offset = shared->offset;
}

/* The sections of one process, rising; the first is executable. */
static void add_sections(struct random *random, struct board *board,
                         const struct process *process, int to_the_end)
{
    const struct range range = range_of(process);
    const uint32_t count = process->count;
    uint32_t page = range.low;

    for (uint32_t i = 0; i < count; i++) {
        struct section *section = &board->section[board->sections];
        const uint32_t pages = between(random, 1, 4);
        const uint32_t room = range.high - page - 4 * (count - i);

        page += gap(random, page, room / (count - i));
        if (to_the_end && i + 1 == count)
            page = range.high - pages;
        section->flags = i == 0 ? EXECUTABLE : flags_in_turn(board->sections);
        shape(random, section, page, pages);
        if (process_kind(process) == 0)
            source(random, section, board->flash_length);
        else if (i > 0)
            source_of_kind_1(random, board, section);
        else
            share_code(random, board, section);
        board->sections++;
        page = (section->address + section->size - 1) / PAGE_BYTES + 1;
    }
}

/* Bits 8 to 15 of a user process's kind word: every second one at an edge. */
static uint32_t stack_bits(struct random *random)
{
    static const uint32_t edges[4] = { 0, 1, 4, 255 };
    const uint32_t pages = one_in(random, 2) ? edges[between(random, 0, 3)]
                           : between(random, 0, 255);

    return pages << 8;
}

/* Processes 2 and 3 are of kind 1, the kernel's kind word is 0. */
static void add_process(struct random *random, struct board *board)
{
    struct process *process = &board->process[board->processes];
    const uint32_t kind = board->processes == 0 ? 0 : board->processes < 3 ? 1
                          : between(random, 0, 1);
    const struct section *code;

    process->kind_word = board->processes == 0 ? 0 : kind | stack_bits(random);
    process->first = board->sections;
    process->count = kind == 0 ? between(random, 4, 7) : between(random, 7, 9);
    add_sections(random, board, process, one_in(random, 2));
    code = &board->section[process->first];
    process->entry = code->address + between(random, 0, code->size - 1);
    board->processes++;
}

/* I/O regions; every second board has so many pages that the tracker takes
 * two. The last region starts where RAM ends. */
static void add_regions(struct random *random, struct board *board, int many)
{
    const struct region before = { 0x10000000, many ? 4000 : 2 };
    const struct region touching = { IMAGE, between(random, 1, 96) };

    board->region[0] = before;
    board->region[1] = touching;
    board->regions = 2;
}

/* As few pages as the board needs, or some more. */
static void choose_pages(struct random *random, struct board *board)
{
    board->pages = one_in(random, 2) ? 0 : between(random, 1, 300);
    give_pages(board);
    board->region[1].start = IMAGE + board->pages * PAGE_BYTES;
}

void generated_board(struct board *board, uint64_t seed)
{
    struct random random = { seed };
    const uint32_t processes = between(&random, 3, 4);

    memset(board, 0, sizeof *board);
    board->flash_length = between(&random, 4 * PAGE_BYTES, MAX_FLASH);
    if (one_in(&random, 4))
        board->flash_length = page_of(board->flash_length);
    board->flash_start = FLASH + PAGE_BYTES * between(&random, 0, MOST_SHIFT);
    fill(&random, board->flash, board->flash_length);
    while (board->processes < processes)
        add_process(&random, board);
    clear_beside(board, &board->section[board->process[1].first]);
    add_regions(&random, board, seed % 2 != 0);
    choose_pages(&random, board);
}
