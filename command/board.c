#include "board.h"

#include <string.h>

#define ADDRESSES     UINT64_C(0x100000000)
#define RAM_BYTES_MAX (RIGPOLLEN_RAM_PAGES_MAX * RIGPOLLEN_PAGE_BYTES)

static uint64_t ram_length(const struct board *board)
{
    return board->ram_pages * RIGPOLLEN_PAGE_BYTES;
}

static uint32_t check_pages(const struct board *board, uint64_t pages,
                            uint32_t answer[RIGPOLLEN_ANSWER_WORDS])
{
    return rigpollen_check(board->block.bytes, board->block.length,
                           board->flash.bytes, board->flash.length,
                           board->flash_start, pages * RIGPOLLEN_PAGE_BYTES,
                           board->ram_start, answer, RIGPOLLEN_ANSWER_WORDS);
}

uint32_t check_board(struct board *board)
{
    return check_pages(board, board->ram_pages, board->answer);
}

/* The least number of pages that is not refused with 12, of RAM at the board's
 * start; 4,097 if there is none. What boots on some RAM boots on more pages,
 * unless these draw 1, 11 or 13, which still more pages draw too: so 12 ends
 * once, and half of the numbers can be left out at a time. */
static uint32_t least_pages(const struct board *board)
{
    uint32_t low = 0, high = RIGPOLLEN_RAM_PAGES_MAX + 1;
    uint32_t answer[RIGPOLLEN_ANSWER_WORDS];

    while (low < high) {
        const uint32_t middle = low + (high - low) / 2;

        if (check_pages(board, middle, answer) == RIGPOLLEN_RAM_TOO_SMALL)
            low = middle + 1;
        else
            high = middle;
    }
    return low;
}

/* RAM at its own start and, where it has no room there, at each multiple of
 * what the largest RAM has. */
uint32_t smallest_ram(const struct board *board)
{
    struct board elsewhere = *board;
    uint32_t answer[RIGPOLLEN_ANSWER_WORDS];

    for (uint64_t start = 0; start < ADDRESSES; start += RAM_BYTES_MAX) {
        const uint32_t pages = least_pages(&elsewhere);

        if (pages > RIGPOLLEN_RAM_PAGES_MAX
            || check_pages(&elsewhere, pages, answer) == RIGPOLLEN_LOADED)
            return pages;
        elsewhere.ram_start = (uint32_t)start;
    }
    return 0;
}

static uint32_t root_of(const struct board *board, uint32_t process)
{
    uint32_t words[RIGPOLLEN_LIST_WORDS] = { 0 };

    rigpollen_process(board->block.bytes, board->block.length,
                      board->flash.bytes, board->flash.length,
                      board->flash_start, ram_length(board), board->ram_start,
                      process, words, RIGPOLLEN_LIST_WORDS);
    return words[RIGPOLLEN_LIST_SATP] & RIGPOLLEN_SATP_ROOT;
}

int load_board(struct board *board)
{
    board->ram = take_memory(ram_length(board));
    if (board->ram == NULL)
        return 0;
    rigpollen_answer(board->block.bytes, board->block.length,
                     board->flash.bytes, board->flash.length,
                     board->flash_start, board->ram, ram_length(board),
                     board->ram_start, board->answer, RIGPOLLEN_ANSWER_WORDS);
    for (uint32_t process = 1; process <= process_count(&board->block); process++)
        board->roots[process] = root_of(board, process);
    return 1;
}

struct seen seen_at(const struct board *board, uint32_t process,
                    uint32_t address)
{
    uint32_t words[RIGPOLLEN_WALK_WORDS] = { 0 };
    struct seen seen;

    seen.walk = rigpollen_walk(board->ram, ram_length(board), board->ram_start,
                               board->roots[process], address, words,
                               RIGPOLLEN_WALK_WORDS);
    seen.rights = words[RIGPOLLEN_WALK_RIGHTS];
    seen.page = words[RIGPOLLEN_WALK_NUMBER];
    return seen;
}

/* The bytes of the page at an address; 0 where there are none. */
static int page_at(const struct board *board, uint32_t process,
                   uint32_t address, uint8_t page[RIGPOLLEN_PAGE_BYTES])
{
    return rigpollen_page(board->ram, ram_length(board), board->ram_start,
                          board->flash.bytes, board->flash.length,
                          board->flash_start, board->roots[process], address,
                          page, RIGPOLLEN_PAGE_BYTES) != 0;
}

int byte_at(const struct board *board, uint32_t process, uint32_t address)
{
    uint8_t page[RIGPOLLEN_PAGE_BYTES];

    if (!page_at(board, process, address, page))
        return -1;
    return page[address % RIGPOLLEN_PAGE_BYTES];
}

void read_tracker(uint8_t owners[RIGPOLLEN_PAGE_BYTES], const struct board *board)
{
    if (!page_at(board, 1, RIGPOLLEN_TRACKER_ADDRESS, owners))
        memset(owners, 0, RIGPOLLEN_PAGE_BYTES);
}

uint32_t pages_of(const struct board *board, uint32_t process)
{
    uint8_t owners[RIGPOLLEN_PAGE_BYTES];
    uint32_t count = 0;

    read_tracker(owners, board);
    for (uint64_t page = 0; page < board->ram_pages; page++)
        count += owners[page] == process;
    return count;
}

uint32_t reserved_pages(const struct board *board, uint32_t process)
{
    uint32_t count = 0;

    while (seen_at(board, process,
                   RIGPOLLEN_STACK_POINTER - (count + 1) * RIGPOLLEN_PAGE_BYTES).walk
           == RIGPOLLEN_WALK_RESERVED)
        count++;
    return count;
}

int in_ram(const struct board *board, uint32_t page, uint32_t *ram_page)
{
    *ram_page = page - board->ram_start / RIGPOLLEN_PAGE_BYTES;
    return *ram_page < board->ram_pages;
}
