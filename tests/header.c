/*
 * The macros of rigpollen.h against the figures of 01 and 02: as numbers, and
 * as the small board has them, before and after its load. C99, and C++ too.
 */
#include <stdio.h>
#include <string.h>

#include "rigpollen.h"

#define RAM_START   0x40000000u
#define RAM_PAGES   16u
#define FLASH_START 0x20000000u
#define FLASH_BYTES 320u
#define BLOCK_BYTES 120u

static uint8_t block[RIGPOLLEN_BLOCK_BYTES_MAX], flash[FLASH_BYTES];
static uint8_t ram[RAM_PAGES * RIGPOLLEN_PAGE_BYTES];
static int faults;

static void same(const char *what, uint32_t found, uint32_t due)
{
    if (found == due)
        return;
    printf("header: %s is 0x%08X, by the papers it is 0x%08X\n", what, (unsigned)found,
           (unsigned)due);
    faults++;
}

#define SAME(macro, due) same(#macro, (uint32_t)(macro), (due))

/* 01's bounds, ranges and flags. */
static void test_bounds(void)
{
    SAME(RIGPOLLEN_PAGE_BYTES, 4096);
    SAME(RIGPOLLEN_PROCESSES_MAX, 16);
    SAME(RIGPOLLEN_SECTIONS_MAX, 64);
    SAME(RIGPOLLEN_REGIONS_MAX, 32);
    SAME(RIGPOLLEN_RAM_PAGES_MAX, 4096);
    SAME(RIGPOLLEN_IO_PAGES_MAX, 4096);
    SAME(RIGPOLLEN_BLOCK_BYTES_MAX, 32 + 16 * 16 + 16 * 64 + 8 * 32);
    SAME(RIGPOLLEN_KERNEL_FIRST, 0xFFC00000);
    SAME(RIGPOLLEN_KERNEL_LAST, 0xFFEFFFFF);
    SAME(RIGPOLLEN_USER_FIRST, 0x00001000);
    SAME(RIGPOLLEN_NOCOPY, 1);
    SAME(RIGPOLLEN_WRITABLE, 2);
    SAME(RIGPOLLEN_EXECUTABLE, 4);
    SAME(RIGPOLLEN_BLOCK_COPY_ADDRESS, 0xFFF00000);
    SAME(RIGPOLLEN_TRACKER_ADDRESS, 0xFFF40000);
    SAME(RIGPOLLEN_PROCESS_LIST_ADDRESS, 0xFFF80000);
}

/* A6's kinds; A7's stack, of which sixteen pages are the default. */
static void test_kind_words(void)
{
    SAME(RIGPOLLEN_KIND_COPIED, 0);
    SAME(RIGPOLLEN_KIND_XIP, 1);
    SAME(RIGPOLLEN_KIND_MASK, 0x00FF);
    SAME(RIGPOLLEN_STACK_MASK, 0xFF00);
    SAME(RIGPOLLEN_STACK_SHIFT, 8);
    SAME(RIGPOLLEN_STACK_PAGES_DEFAULT, 16);
    SAME(RIGPOLLEN_STACK_PAGES(0x0001u), 16);
    SAME(RIGPOLLEN_STACK_PAGES(0xFF00u), 255);
    SAME(RIGPOLLEN_STACK_POINTER, 0x80000000);
    SAME(RIGPOLLEN_USER_LAST(0x0000u), 0x7FFEFFFF);
    SAME(RIGPOLLEN_USER_LAST(0x0400u), 0x7FFFBFFF);
    SAME(RIGPOLLEN_USER_LAST(0x0101u), 0x7FFFEFFF);
    SAME(RIGPOLLEN_USER_LAST(0xFF01u), 0x7FF00FFF);
}

/* 01's refusals, A6's, and A2's. */
static void test_refusals(void)
{
    SAME(RIGPOLLEN_LOADED, 0);
    SAME(RIGPOLLEN_RAM_UNFIT, 1);
    SAME(RIGPOLLEN_BLOCK_TOO_SHORT, 2);
    SAME(RIGPOLLEN_FORMAT_UNKNOWN, 3);
    SAME(RIGPOLLEN_COUNTS_OUT_OF_BOUNDS, 4);
    SAME(RIGPOLLEN_LAYOUT_NOT_TIGHT, 5);
    SAME(RIGPOLLEN_PROCESS_UNFIT, 6);
    SAME(RIGPOLLEN_SECTION_UNFIT, 7);
    SAME(RIGPOLLEN_SECTION_MISPLACED, 8);
    SAME(RIGPOLLEN_SECTION_PAST_FLASH, 9);
    SAME(RIGPOLLEN_ENTRY_POINT_OUTSIDE, 10);
    SAME(RIGPOLLEN_REGION_UNFIT, 11);
    SAME(RIGPOLLEN_RAM_TOO_SMALL, 12);
    SAME(RIGPOLLEN_FLASH_UNFIT, 13);
    SAME(RIGPOLLEN_LISTS_UNFIT, 21);
    SAME(RIGPOLLEN_BUFFER_TOO_SHORT, 22);
}

/* Lengths in words; 01's bits of a table entry, and A1's two. */
static void test_words(void)
{
    SAME(RIGPOLLEN_ANSWER_WORDS, 6);
    SAME(RIGPOLLEN_LIST_WORDS, 3);
    SAME(RIGPOLLEN_WALK_WORDS, 2);
    SAME(RIGPOLLEN_WRITTEN_WORDS, 4);
    SAME(RIGPOLLEN_PROCESS_RECORD_WORDS, 4);
    SAME(RIGPOLLEN_SECTION_RECORD_WORDS, 4);
    SAME(RIGPOLLEN_REGION_RECORD_WORDS, 2);
    SAME(RIGPOLLEN_TABLE_ENTRIES, 1024);
    SAME(RIGPOLLEN_ENTRY_VALID, 1);
    SAME(RIGPOLLEN_ENTRY_READ, 2);
    SAME(RIGPOLLEN_ENTRY_WRITE, 4);
    SAME(RIGPOLLEN_ENTRY_EXECUTE, 8);
    SAME(RIGPOLLEN_ENTRY_USER, 16);
    SAME(RIGPOLLEN_ENTRY_ACCESSED, 64);
    SAME(RIGPOLLEN_ENTRY_DIRTY, 128);
}

static void test_version(void)
{
    char version[32];

    snprintf(version, sizeof version, "%d.%d.%d", RIGPOLLEN_VERSION_MAJOR,
             RIGPOLLEN_VERSION_MINOR, RIGPOLLEN_VERSION_PATCH);
    SAME(strcmp(version, RIGPOLLEN_VERSION), 0);
}

static void put(uint32_t offset, uint32_t word)
{
    for (uint32_t i = 0; i < 4; i++)
        block[offset + i] = (uint8_t)(word >> 8 * i);
}

static uint32_t word_at(const uint8_t *at)
{
    return at[0] | (uint32_t)at[1] << 8 | (uint32_t)at[2] << 16 | (uint32_t)at[3] << 24;
}

/* ------------------------------------------------------ the boot block */

static void put_process(uint32_t i, uint32_t entry_point, uint32_t first, uint32_t sections,
                        uint32_t kind_word)
{
    const uint32_t at = RIGPOLLEN_HEADER_BYTES + i * RIGPOLLEN_PROCESS_BYTES;

    put(at + RIGPOLLEN_PROCESS_ENTRY_POINT, entry_point);
    put(at + RIGPOLLEN_PROCESS_FIRST_SECTION, first);
    put(at + RIGPOLLEN_PROCESS_SECTIONS, sections);
    put(at + RIGPOLLEN_PROCESS_KIND_WORD, kind_word);
}

static void put_section(uint32_t n, uint32_t address, uint32_t size, uint32_t offset,
                        uint32_t flags)
{
    const uint32_t at = RIGPOLLEN_HEADER_BYTES + 2 * RIGPOLLEN_PROCESS_BYTES
                        + n * RIGPOLLEN_SECTION_BYTES;

    put(at + RIGPOLLEN_SECTION_ADDRESS, address);
    put(at + RIGPOLLEN_SECTION_SIZE, size);
    put(at + RIGPOLLEN_SECTION_FLASH_OFFSET, offset);
    put(at + RIGPOLLEN_SECTION_FLAGS, flags);
}

static void put_header(uint32_t sections_at, uint32_t regions_at, uint32_t length)
{
    put(RIGPOLLEN_HEADER_FORMAT, RIGPOLLEN_FORMAT);
    put(RIGPOLLEN_HEADER_LENGTH, length);
    put(RIGPOLLEN_HEADER_PROCESSES, 2);
    put(RIGPOLLEN_HEADER_PROCESSES_AT, RIGPOLLEN_HEADER_BYTES);
    put(RIGPOLLEN_HEADER_SECTIONS, 3);
    put(RIGPOLLEN_HEADER_SECTIONS_AT, sections_at);
    put(RIGPOLLEN_HEADER_REGIONS, 1);
    put(RIGPOLLEN_HEADER_REGIONS_AT, regions_at);
}

/* The small board's block, written at the header's offsets. */
static void put_block(uint32_t kind_word)
{
    const uint32_t sections_at = RIGPOLLEN_HEADER_BYTES + 2 * RIGPOLLEN_PROCESS_BYTES;
    const uint32_t regions_at = sections_at + 3 * RIGPOLLEN_SECTION_BYTES;

    put_header(sections_at, regions_at, regions_at + RIGPOLLEN_REGION_BYTES);
    put_process(0, 0xFFC00010, 0, 1, 0);
    put_process(1, 0x00010020, 1, 2, kind_word);
    put_section(0, 0xFFC00000, 256, 0, RIGPOLLEN_EXECUTABLE);
    put_section(1, 0x00010020, 64, 256, RIGPOLLEN_EXECUTABLE);
    put_section(2, 0x00020000, 4096, 0, RIGPOLLEN_NOCOPY | RIGPOLLEN_WRITABLE);
    put(regions_at + RIGPOLLEN_REGION_START, 0xF0000000);
    put(regions_at + RIGPOLLEN_REGION_PAGES, 2);
}

/* ... is the block that 01 gives, here with a stack of four pages. */
static void test_block(void)
{
    static const uint32_t due[BLOCK_BYTES / 4] = {
        1, 120, 2, 32, 3, 64, 1, 112,
        0xFFC00010, 0, 1, 0, 0x00010020, 1, 2, 0x400,
        0xFFC00000, 256, 0, 4, 0x00010020, 64, 256, 4, 0x00020000, 4096, 0, 3,
        0xF0000000, 2,
    };

    put_block(4u << RIGPOLLEN_STACK_SHIFT);
    for (uint32_t i = 0; i < BLOCK_BYTES / 4; i++)
        same("a word of the small board's block", word_at(block + 4 * i), due[i]);
}

/* ---------------------------------------------------------- the answers */

static uint32_t load(uint32_t answer[RIGPOLLEN_ANSWER_WORDS])
{
    return rigpollen_answer(block, BLOCK_BYTES, flash, FLASH_BYTES, FLASH_START, ram, sizeof ram,
                            RAM_START, answer, RIGPOLLEN_ANSWER_WORDS);
}

/* P8, `refused 8 at 2, byte 96`; then P1. */
static void test_answers(void)
{
    uint32_t answer[RIGPOLLEN_ANSWER_WORDS];

    put_block(0);
    put_section(2, 0x00010060, 4096, 0, RIGPOLLEN_NOCOPY | RIGPOLLEN_WRITABLE);
    SAME(load(answer), RIGPOLLEN_SECTION_MISPLACED);
    SAME(answer[RIGPOLLEN_ANSWER_NUMBER], 8);
    SAME(answer[RIGPOLLEN_ANSWER_PLACE], 2);
    SAME(answer[RIGPOLLEN_ANSWER_OFFSET], 96);
    put_block(0);
    SAME(load(answer), RIGPOLLEN_LOADED);
    SAME(answer[RIGPOLLEN_ANSWER_TAKEN], 15);
    SAME(answer[RIGPOLLEN_ANSWER_FREE], 1);
    SAME(answer[RIGPOLLEN_ANSWER_TRACKER], 1);
}

static uint32_t process(uint32_t number, uint32_t words[RIGPOLLEN_LIST_WORDS])
{
    return rigpollen_process(block, BLOCK_BYTES, flash, FLASH_BYTES, FLASH_START, sizeof ram,
                             RAM_START, number, words, RIGPOLLEN_LIST_WORDS);
}

static void test_processes(void)
{
    uint32_t words[RIGPOLLEN_LIST_WORDS];

    SAME(process(2, words), RIGPOLLEN_LOADED);
    SAME(words[RIGPOLLEN_LIST_SATP], 0x80840003);
    SAME(words[RIGPOLLEN_LIST_SATP] & RIGPOLLEN_SATP_ROOT, 0x40003);
    SAME(words[RIGPOLLEN_LIST_ENTRY], 0x00010020);
    SAME(words[RIGPOLLEN_LIST_STACK], RIGPOLLEN_STACK_POINTER);
    SAME(process(3, words), RIGPOLLEN_NO_PROCESS);
}

/* ----------------------------------------------------------- the writer */

static uint32_t processes[2 * RIGPOLLEN_PROCESS_RECORD_WORDS] = {
    0xFFC00010, 0, 1, 0, 0x00010020, 1, 2, 0
};
static uint8_t written[RIGPOLLEN_BLOCK_BYTES_MAX];

/* The small board's records, with so many words of processes. */
static uint32_t write_block(uint64_t process_words, uint64_t room,
                            uint32_t answer[RIGPOLLEN_WRITTEN_WORDS])
{
    static const uint32_t sections[3 * RIGPOLLEN_SECTION_RECORD_WORDS] = {
        0xFFC00000, 256, 0, 4, 0x00010020, 64, 256, 4, 0x00020000, 4096, 0, 3
    };
    static const uint32_t regions[RIGPOLLEN_REGION_RECORD_WORDS] = { 0xF0000000, 2 };

    return rigpollen_write_block(processes, process_words, sections,
                                 3 * RIGPOLLEN_SECTION_RECORD_WORDS, regions,
                                 RIGPOLLEN_REGION_RECORD_WORDS, written, room, answer,
                                 RIGPOLLEN_WRITTEN_WORDS);
}

/* It refuses 21, 22 and 6, and writes the same block. */
static void test_writer(void)
{
    const uint32_t words = 2 * RIGPOLLEN_PROCESS_RECORD_WORDS;
    uint32_t answer[RIGPOLLEN_WRITTEN_WORDS];

    SAME(write_block(words - 1, BLOCK_BYTES, answer), RIGPOLLEN_LISTS_UNFIT);
    SAME(answer[RIGPOLLEN_WRITTEN_NUMBER], 21);
    SAME(write_block(words, BLOCK_BYTES - 1, answer), RIGPOLLEN_BUFFER_TOO_SHORT);
    SAME(answer[RIGPOLLEN_WRITTEN_NUMBER], 22);
    SAME(write_block(words, sizeof written, answer), RIGPOLLEN_LOADED);
    SAME(answer[RIGPOLLEN_WRITTEN_LENGTH], BLOCK_BYTES);
    SAME(memcmp(written, block, BLOCK_BYTES), 0);
    processes[words - 1] = 2;
    SAME(write_block(words, sizeof written, answer), RIGPOLLEN_PROCESS_UNFIT);
    SAME(answer[RIGPOLLEN_WRITTEN_PLACE], 1);
    SAME(answer[RIGPOLLEN_WRITTEN_OFFSET], 48);
}

/* ------------------------------------------------------ the page tables */

/* Entry i of the table in a page of RAM, after the load. */
static void test_entry(uint32_t page, uint32_t i, uint32_t to, uint32_t flags, uint32_t due)
{
    const uint32_t made = to << RIGPOLLEN_ENTRY_PAGE_SHIFT | flags;
    char what[64];

    snprintf(what, sizeof what, "entry %u of the table in page %u", (unsigned)i, (unsigned)page);
    same(what, word_at(ram + page * RIGPOLLEN_PAGE_BYTES + 4 * i), due);
    snprintf(what, sizeof what, "entry %u of page %u, made of its bits,", (unsigned)i,
             (unsigned)page);
    same(what, made, due);
}

/* 01's entries of the small board, with A1's bits: code is 0x5B, data 0xD7. */
static void test_entries(void)
{
    const uint32_t page = RIGPOLLEN_ENTRY_VALID | RIGPOLLEN_ENTRY_READ | RIGPOLLEN_ENTRY_ACCESSED;
    const uint32_t user = page | RIGPOLLEN_ENTRY_USER;
    const uint32_t writable = RIGPOLLEN_ENTRY_WRITE | RIGPOLLEN_ENTRY_DIRTY;

    test_entry(2, 16, 0x4000B, user | RIGPOLLEN_ENTRY_EXECUTE, 0x10002C5B);
    test_entry(2, 32, 0x4000A, user | writable, 0x100028D7);
    test_entry(1, 1023, 0, RIGPOLLEN_ENTRY_RESERVED, 22);
    test_entry(3, 0, 0x40002, RIGPOLLEN_ENTRY_VALID, 0x10000801);
    test_entry(3, 511, 0x40001, RIGPOLLEN_ENTRY_VALID, 0x10000401);
    test_entry(3, 1023, 0x40004, RIGPOLLEN_ENTRY_VALID, 0x10001001);
    test_entry(4, RIGPOLLEN_BLOCK_COPY_ADDRESS >> 12 & 1023, 0x40006, page, 0x10001843);
    test_entry(4, RIGPOLLEN_TRACKER_ADDRESS >> 12 & 1023, 0x40008, page | writable, 0x100020C7);
    test_entry(4, RIGPOLLEN_PROCESS_LIST_ADDRESS >> 12 & 1023, 0x40007, page, 0x10001C43);
}

static uint32_t walk(uint32_t address, uint32_t page[RIGPOLLEN_WALK_WORDS])
{
    return rigpollen_walk(ram, sizeof ram, RAM_START, 0x40003, address, page,
                          RIGPOLLEN_WALK_WORDS);
}

static void test_walks(void)
{
    uint32_t page[RIGPOLLEN_WALK_WORDS];

    SAME(walk(0x00020000, page), RIGPOLLEN_WALK_PAGE);
    SAME(page[RIGPOLLEN_WALK_RIGHTS], RIGPOLLEN_READ + RIGPOLLEN_WRITE + RIGPOLLEN_USER);
    SAME(page[RIGPOLLEN_WALK_NUMBER], 0x4000A);
    SAME(walk(RIGPOLLEN_KERNEL_FIRST, page), RIGPOLLEN_WALK_PAGE);
    SAME(page[RIGPOLLEN_WALK_RIGHTS], RIGPOLLEN_READ + RIGPOLLEN_EXECUTE);
    SAME(walk(RIGPOLLEN_USER_LAST(0u), page), RIGPOLLEN_WALK_ABSENT);
    SAME(walk(RIGPOLLEN_USER_LAST(0u) + 1, page), RIGPOLLEN_WALK_RESERVED);
}

int main(void)
{
    test_bounds();
    test_kind_words();
    test_refusals();
    test_words();
    test_version();
    test_block();
    test_answers();
    test_processes();
    test_writer();
    test_entries();
    test_walks();
    return faults != 0;
}
