/*
 * Generated boards for the command: where the load is refused, a cause is found
 * and names the record; where it boots, each taken page of RAM has one use, and
 * the uses add up to the library's counts.
 */
#include <stdio.h>
#include <stdlib.h>
#include <string.h>

#include "explain.h"
#include "uses.h"

#define BOARDS      20000u
#define FLASH_BYTES 65536u
#define NUMBERS     14u

static uint64_t state = UINT64_C(0x9E3779B97F4A7C15);

static uint32_t below(uint32_t bound)
{
    state ^= state << 13;
    state ^= state >> 7;
    state ^= state << 17;
    return (uint32_t)(state >> 32) % bound;
}

static void put_word(uint8_t *block, uint32_t offset, uint32_t word)
{
    for (uint32_t i = 0; i < 4; i++)
        block[offset + i] = (uint8_t)(word >> 8 * i);
}

/* -------------------------------------------------- boards that may boot */

/* Words of the records, as the writer takes them. */
struct lists {
    uint32_t processes[4 * RIGPOLLEN_PROCESSES_MAX], process_count;
    uint32_t sections[4 * RIGPOLLEN_SECTIONS_MAX], section_count;
    uint32_t regions[2 * RIGPOLLEN_REGIONS_MAX], region_count;
};

/* A section from the address on; answers an address on a page after it. */
static uint32_t add_section(struct lists *lists, uint32_t address, uint32_t flags)
{
    uint32_t *record = &lists->sections[4 * lists->section_count++];
    const uint32_t offset = below(FLASH_BYTES / 2);

    record[0] = address;
    record[1] = 1 + below(below(4) == 0 ? 40000 : 5000);
    record[2] = flags & RIGPOLLEN_NOCOPY ? 0
                : below(2) ? offset / RIGPOLLEN_PAGE_BYTES * RIGPOLLEN_PAGE_BYTES
                                 + address % RIGPOLLEN_PAGE_BYTES
                           : offset;
    record[3] = flags;
    return ((address + record[1]) / RIGPOLLEN_PAGE_BYTES + 1 + below(600))
               * RIGPOLLEN_PAGE_BYTES
           + below(2) * below(RIGPOLLEN_PAGE_BYTES);
}

static void add_process(struct lists *lists)
{
    static const uint32_t flags[] = { 0, 2, 3, 4, 1 };
    const uint32_t i = lists->process_count++;
    const uint32_t first = lists->section_count, count = 1 + below(4);
    uint32_t address = (i == 0 ? RIGPOLLEN_KERNEL_FIRST : 0x10000) + below(8192);

    lists->processes[4 * i] = address;
    lists->processes[4 * i + 1] = first;
    lists->processes[4 * i + 2] = count;
    lists->processes[4 * i + 3] = i == 0 ? 0 : below(2) | below(2) * (below(256) << 8);
    address = add_section(lists, address, RIGPOLLEN_EXECUTABLE);
    for (uint32_t n = 1; n < count; n++)
        address = add_section(lists, address, flags[below(5)]);
}

static void add_regions(struct lists *lists)
{
    uint32_t start = 0xE0000000u;

    lists->region_count = below(4);
    for (uint32_t i = 0; i < lists->region_count; i++) {
        const uint32_t pages = 1 + below(below(8) == 0 ? 1400 : 20);

        lists->regions[2 * i] = start;
        lists->regions[2 * i + 1] = pages;
        start += (pages + below(3)) * RIGPOLLEN_PAGE_BYTES;
    }
}

static void make_board(struct board *board)
{
    static struct lists lists;
    uint32_t answer[RIGPOLLEN_WRITTEN_WORDS];

    memset(&lists, 0, sizeof lists);
    for (uint32_t left = 1 + below(RIGPOLLEN_PROCESSES_MAX); left > 0; left--)
        add_process(&lists);
    add_regions(&lists);
    rigpollen_write_block(lists.processes, 4 * lists.process_count, lists.sections,
                          4 * lists.section_count, lists.regions, 2 * lists.region_count,
                          board->block.bytes, RIGPOLLEN_BLOCK_BYTES_MAX, answer,
                          RIGPOLLEN_WRITTEN_WORDS);
    board->block.length = answer[RIGPOLLEN_WRITTEN_LENGTH];
    board->flash.length = below(4) == 0 ? below(FLASH_BYTES) : FLASH_BYTES;
    board->flash_start = 0x20000000 + below(64) * RIGPOLLEN_PAGE_BYTES;
    board->ram_start = 0x80000000 + below(64) * RIGPOLLEN_PAGE_BYTES;
    board->ram_pages = below(8) == 0 ? 3 * RIGPOLLEN_RAM_PAGES_MAX / 4
                                           + below(RIGPOLLEN_RAM_PAGES_MAX / 4 + 4)
                                     : below(400);
}

/* ------------------------------------------------------ boards gone wrong */

static uint32_t odd_word(void)
{
    static const uint32_t words[] = {
        0, 1, 2, 3, 8, 15, 16, 17, 31, 32, 33, 64, 65, 4095, 4096, 4097, 0xFFF, 0x1000, 0x400,
        0x10000, 0x7FFEFFFF, 0x7FFF0000, 0x7FFFFFFF, 0x80000000, 0x80001000, 0xE0000000,
        0x20000000, 0x20010000, 0xFFC00000, 0xFFEFFFFF, 0xFFF00000, 0xFFFFF000, 0xFFFFFFFF,
    };

    return words[below(sizeof words / sizeof words[0])] + below(2) * below(3);
}

static void spoil_word(struct board *board)
{
    if (board->block.length >= 4)
        put_word(board->block.bytes,
                 4 * below(below(4) == 0 ? 8 : (uint32_t)board->block.length / 4), odd_word());
}

static void spoil(struct board *board)
{
    switch (below(9)) {
    case 0:
        board->ram_start = odd_word();
        break;
    case 1:
        board->flash_start = odd_word();
        break;
    case 2:
        board->ram_pages = odd_word();
        break;
    case 3:
        board->block.length = below(3) == 0 ? below(40) : board->block.length - below(2);
        break;
    default:
        spoil_word(board);
    }
}

/* ----------------------------------------------------------------- tests */

/* How often each number came, sections used in place, and faults. */
static uint32_t met[NUMBERS], in_place, faults;

static void fault(const struct board *board, const char *what)
{
    printf("command_boards: number %u: %s\n",
           (unsigned)board->answer[RIGPOLLEN_ANSWER_NUMBER], what);
    faults++;
}

/* Which text an explanation begins with. */
static const char *subject(uint32_t number)
{
    static const char *const subjects[NUMBERS] = {
        "", "RAM: ", "block: ", "header: ", "header: ", "", "process record", "section record",
        "section record", "section record", "process record", "region record", "RAM: ", "flash: ",
    };

    return subjects[number];
}

static void test_refusal(const struct board *board)
{
    const uint32_t number = board->answer[RIGPOLLEN_ANSWER_NUMBER];
    char line[CAUSE_BYTES], record[64];

    snprintf(record, sizeof record, "record %u",
             (unsigned)board->answer[RIGPOLLEN_ANSWER_PLACE]);
    if (!explain(line, board))
        fault(board, "no cause is found");
    else if (strncmp(line, subject(number), strlen(subject(number))) != 0)
        fault(board, line);
    else if (strstr(subject(number), "record") != NULL && strstr(line, record) == NULL)
        fault(board, line);
}

static void test_page(const struct board *board, const struct uses *uses, uint32_t page,
                      uint32_t counts[USES])
{
    const struct page_use *use = &uses->pages[page];
    const uint32_t owner = use->use == USE_FREE      ? 0
                           : use->use == USE_SECTION ? use->process
                                                     : 1;

    counts[use->use]++;
    if (use->owner != owner)
        fault(board, "a page has another owner than its use");
    if ((use->use == USE_TOP) != (page + 4 >= uses->page_count))
        fault(board, "the top four pages are not the loader's");
    if ((use->use == USE_FREE) != (page < board->answer[RIGPOLLEN_ANSWER_FREE]))
        fault(board, "the free pages are not the lowest");
}

static void test_boot(struct board *board, struct uses *uses)
{
    uint32_t counts[USES] = { 0 };

    if (!load_board(board))
        exit(EXIT_FAILURE);
    find_uses(uses, board);
    in_place += uses->flash_count;
    for (uint32_t page = 0; page < uses->page_count; page++)
        test_page(board, uses, page, counts);
    if (counts[USE_TRACKER] != board->answer[RIGPOLLEN_ANSWER_TRACKER]
        || counts[USE_ROOT] != process_count(&board->block) || counts[USE_LIST] != 1
        || counts[USE_COPY] != 1)
        fault(board, "a tracker, list, copy or root page is missing");
    if (smallest_ram(board) > board->ram_pages)
        fault(board, "the smallest RAM is larger than one on which it boots");
    free(board->ram);
    board->ram = NULL;
}

static void test_board(struct board *board, struct uses *uses)
{
    make_board(board);
    if (below(3) != 0)
        spoil(board);
    if (below(3) == 0)
        spoil(board);
    met[check_board(board)]++;
    if (board->answer[RIGPOLLEN_ANSWER_NUMBER] == RIGPOLLEN_LOADED)
        test_boot(board, uses);
    else
        test_refusal(board);
}

/* Every third page of flash is not zeros. */
static void fill_flash(uint8_t flash[FLASH_BYTES])
{
    for (uint32_t i = 0; i < FLASH_BYTES; i++)
        flash[i] = (uint8_t)(i / RIGPOLLEN_PAGE_BYTES % 3 == 0 ? below(256) : 0);
}

static void test_boards(struct board *board, struct uses *uses)
{
    for (uint32_t i = 0; i < BOARDS; i++)
        test_board(board, uses);
}

/* Every number came often enough. */
static void test_met(void)
{
    for (uint32_t number = 0; number < NUMBERS; number++)
        if (met[number] < 20) {
            printf("command_boards: number %u came %u times\n", (unsigned)number,
                   (unsigned)met[number]);
            faults++;
        }
}

int main(void)
{
    static struct uses uses;
    static uint8_t block[RIGPOLLEN_BLOCK_BYTES_MAX], flash[FLASH_BYTES];
    struct board board;

    memset(&board, 0, sizeof board);
    board.block.bytes = block;
    board.flash.bytes = flash;
    fill_flash(flash);
    test_boards(&board, &uses);
    test_met();
    printf("command_boards: %u boards; %u of them boot, with %u sections used in place\n", BOARDS,
           (unsigned)met[0], (unsigned)in_place);
    return faults == 0 && in_place != 0 ? EXIT_SUCCESS : EXIT_FAILURE;
}
