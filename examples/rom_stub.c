/*
 * A ROM stub: boots the small board, prints what was loaded, and shows what
 * to do when a block is refused.
 *
 * On the chip, `flash` and `ram` would be the pointers FLASH_START and RAM_START
 * themselves, and the last step a jump: satp and the entry point of process 1 as
 * rigpollen_process gives them. Here both are arrays, and the listing stands for
 * the jump.
 */
#include <stdio.h>
#include <string.h>

#include "rigpollen.h"

#define RAM_START     0x40000000u
#define RAM_PAGES     16u
#define FLASH_START   0x20000000u
#define FLASH_BYTES   320u

#define PROCESSES     2u
#define SECTIONS      3u
#define REGIONS       1u
#define SECTIONS_AT   (RIGPOLLEN_HEADER_BYTES + RIGPOLLEN_PROCESS_BYTES * PROCESSES)
#define REGIONS_AT    (SECTIONS_AT + RIGPOLLEN_SECTION_BYTES * SECTIONS)
#define BLOCK_BYTES   (REGIONS_AT + RIGPOLLEN_REGION_BYTES * REGIONS)

static const uint32_t block_words[BLOCK_BYTES / 4] = {
    /* format, length, and count and offset of each kind of record */
    RIGPOLLEN_FORMAT, BLOCK_BYTES, PROCESSES, RIGPOLLEN_HEADER_BYTES,
    SECTIONS, SECTIONS_AT, REGIONS, REGIONS_AT,
    /* processes: entry point, first section, section count, kind word */
    0xFFC00010u, 0, 1, 0,
    0x00010020u, 1, 2, 0,
    /* sections: virtual address, size, flash offset, flags */
    0xFFC00000u, 256, 0, RIGPOLLEN_EXECUTABLE,
    0x00010020u, 64, 256, RIGPOLLEN_EXECUTABLE,
    0x00020000u, 4096, 0, RIGPOLLEN_NOCOPY | RIGPOLLEN_WRITABLE,
    /* I/O regions: start, pages */
    0xF0000000u, 2,
};

/* Where the flash offset of the second section stands in the block. */
#define SECOND_OFFSET_AT \
    (SECTIONS_AT + RIGPOLLEN_SECTION_BYTES + RIGPOLLEN_SECTION_FLASH_OFFSET)

static uint8_t flash[FLASH_BYTES];
static uint8_t ram[RAM_PAGES * RIGPOLLEN_PAGE_BYTES];
static uint8_t ram_before[sizeof ram];

/* ------------------------------------------------------- words and bytes */

static void put_word(uint8_t *at, uint32_t word)
{
    for (int i = 0; i < 4; i++)
        at[i] = (uint8_t)(word >> 8 * i);
}

static uint32_t get_word(const uint8_t *at)
{
    return at[0] | (uint32_t)at[1] << 8 | (uint32_t)at[2] << 16
           | (uint32_t)at[3] << 24;
}

static void make_block(uint8_t block[BLOCK_BYTES])
{
    for (size_t i = 0; i < BLOCK_BYTES / 4; i++)
        put_word(block + 4 * i, block_words[i]);
}

/* ----------------------------------------------------- what was loaded */

/* A process's root table, as its satp word names it; 0 where there is none. */
static uint32_t root_of(const uint8_t block[BLOCK_BYTES], uint32_t process)
{
    uint32_t words[RIGPOLLEN_LIST_WORDS];

    if (rigpollen_process(block, BLOCK_BYTES, flash, sizeof flash, FLASH_START,
                          sizeof ram, RAM_START, process, words,
                          RIGPOLLEN_LIST_WORDS) != RIGPOLLEN_LOADED)
        return 0;
    return words[RIGPOLLEN_LIST_SATP] & RIGPOLLEN_SATP_ROOT;
}

/* Where the byte at a virtual address stands in RAM; a null pointer if there
 * is no page, or one outside RAM. */
static const uint8_t *at(uint32_t root, uint32_t address)
{
    uint32_t page[RIGPOLLEN_WALK_WORDS], ram_page;

    if (rigpollen_walk(ram, sizeof ram, RAM_START, root, address, page,
                       RIGPOLLEN_WALK_WORDS) != RIGPOLLEN_WALK_PAGE)
        return NULL;
    ram_page = page[RIGPOLLEN_WALK_NUMBER] - RAM_START / RIGPOLLEN_PAGE_BYTES;
    if (ram_page >= RAM_PAGES)
        return NULL;
    return ram + ram_page * RIGPOLLEN_PAGE_BYTES
           + address % RIGPOLLEN_PAGE_BYTES;
}

/* RAM pages that the tracker gives to a process. */
static uint32_t pages_of(uint32_t root, uint32_t process)
{
    uint32_t count = 0;

    for (uint32_t page = 0; page < RAM_PAGES; page++) {
        const uint8_t *owner = at(root, RIGPOLLEN_TRACKER_ADDRESS + page);

        count += owner != NULL && *owner == process;
    }
    return count;
}

/* A word of a process's entry in the process list. */
static uint32_t listed(uint32_t root, uint32_t process, uint32_t word)
{
    const uint32_t index = RIGPOLLEN_LIST_WORDS * (process - 1) + word;
    const uint8_t *found = at(root, RIGPOLLEN_PROCESS_LIST_ADDRESS + 4 * index);

    return found != NULL ? get_word(found) : 0;
}

static void print_listing(const uint8_t block[BLOCK_BYTES],
                          const uint32_t answer[RIGPOLLEN_ANSWER_WORDS])
{
    const uint32_t root = root_of(block, 1);

    printf("boot %u pages, %u free\n", (unsigned)RAM_PAGES,
           (unsigned)answer[RIGPOLLEN_ANSWER_FREE]);
    for (uint32_t process = 1; process <= PROCESSES; process++)
        printf("pid %u pages %u root %x\n", (unsigned)process,
               (unsigned)pages_of(root, process),
               (unsigned)(listed(root, process, RIGPOLLEN_LIST_SATP)
                          & RIGPOLLEN_SATP_ROOT));
}

/* -------------------------------------------------------------- the boot */

static uint32_t boot(const uint8_t block[BLOCK_BYTES])
{
    uint32_t answer[RIGPOLLEN_ANSWER_WORDS];
    const uint32_t number = rigpollen_answer(block, BLOCK_BYTES, flash,
                                             sizeof flash, FLASH_START, ram,
                                             sizeof ram, RAM_START, answer,
                                             RIGPOLLEN_ANSWER_WORDS);

    if (number == RIGPOLLEN_LOADED)
        print_listing(block, answer);
    else
        printf("refused %u at %u, byte %u\n", (unsigned)number,
               (unsigned)answer[RIGPOLLEN_ANSWER_PLACE],
               (unsigned)answer[RIGPOLLEN_ANSWER_OFFSET]);
    return number;
}

int main(void)
{
    uint8_t block[BLOCK_BYTES], damaged[BLOCK_BYTES];

    for (size_t i = 0; i < sizeof flash; i++)
        flash[i] = (uint8_t)i;
    make_block(block);
    if (boot(block) != RIGPOLLEN_LOADED)
        return 1;

    /* An update gone wrong: a section that ends one byte after flash does. */
    memcpy(damaged, block, sizeof block);
    put_word(damaged + SECOND_OFFSET_AT, 257);
    memcpy(ram_before, ram, sizeof ram);
    if (boot(damaged) == RIGPOLLEN_LOADED)
        return 1;

    /* A refusal leaves RAM as it came, so the block from before can be loaded
     * again: here by the entry that answers the number alone. */
    if (memcmp(ram, ram_before, sizeof ram) != 0)
        return 1;
    return rigpollen_load(block, sizeof block, flash, sizeof flash, FLASH_START,
                          ram, sizeof ram, RAM_START)
           == RIGPOLLEN_LOADED ? 0 : 1;
}
