/*
 * The boards that are loaded.
 */
#ifndef BOARD_H
#define BOARD_H

#include "block.h"

#define RAM_PAGES_MAX 4096u
#define TOP_PAGES     4u /* at RAM's top: never written */
#define FLASH_START   0x20000000u

#define KERNEL        0xFFC00000u
#define STACK_SLOT    0x7FC00000u /* the root slot that holds the stack */

/* A kernel of one page. */
#define SMALL_KERNEL  { 1, { KERNEL, { { 1, KERNEL, 0, PAGE, EXECUTABLE } } } }

/* A process of n pages that are copied from flash, and n that are not. */
#define HALF_COPIED(n) { 0x10000, { { 1, 0x10000, 0, (n) * PAGE, EXECUTABLE }, \
                                    { 1, 0x10000 + (n) * PAGE, 0, (n) * PAGE, NOCOPY | WRITABLE } } }

/* A process of kind 1: two sections that share a page of flash, and so are
 * copied, and one of three pages, used straight from flash with zeros before
 * and after it. */
#define FLASH_USER    { 0x20040, { { 2, 0x10000, 0x2800, 0x1800, 0 }, \
                                   { 1, 0x20040, 0, 3 * PAGE - 0x80, EXECUTABLE | STRAIGHT } } }

enum { LARGE_BOARD, SMALL_BOARD, ROOT_SLOTS, ONE_PAGE_SECTIONS, ONE_BYTE_USERS, FLASH_USERS, BOARDS };

static const struct {
    const char *name;
    uint32_t ram_pages;
    struct board board;
} boards[BOARDS] = {
    /* fifteen user processes whose sections take 4,000 pages */
    [LARGE_BOARD] = { "large board", 4096, {
        .groups = { SMALL_KERNEL, { 14, HALF_COPIED(133) }, { 1, HALF_COPIED(138) } },
    } },
    [SMALL_BOARD] = { "small board", 16, {
        .groups = { { 1, { 0xFFC00010u, { { 1, KERNEL, 0, 256, EXECUTABLE } } } },
                    { 1, { 0x10020, { { 1, 0x10020, 0, 64, EXECUTABLE },
                                      { 1, 0x20000, 0, PAGE, NOCOPY | WRITABLE } } } } },
        .regions = { 1, 0xF0000000u, 2 },
    } },
    /* each section of a user process has a root slot of its own */
    [ROOT_SLOTS] = { "60 root slots", 256, {
        .groups = { SMALL_KERNEL, { 15, { SLOT, { { 4, SLOT, SLOT, PAGE, EXECUTABLE } } } } },
    } },
    [ONE_PAGE_SECTIONS] = { "64 sections of one page", 256, {
        .groups = { { 1, { KERNEL, { { 4, KERNEL, PAGE, PAGE, EXECUTABLE } } } },
                    { 15, { SLOT, { { 4, SLOT, PAGE, PAGE, EXECUTABLE } } } } },
    } },
    /* as much to check and as little to load as can be */
    [ONE_BYTE_USERS] = { "15 users of one byte", 55, {
        .groups = { SMALL_KERNEL, { 15, { STACK_SLOT, { { 1, STACK_SLOT, 0, 1, EXECUTABLE } } } } },
        .regions = { 32, 0xF0000000u, 1 },
    } },
    [FLASH_USERS] = { "15 users from flash", 128, {
        .groups = { SMALL_KERNEL, { 15, FLASH_USER } },
    } },
};

static uint32_t block_word(const struct block *b, uint32_t at)
{
    const uint8_t *word = b->bytes + at;

    return word[0] | (uint32_t)word[1] << 8 | (uint32_t)word[2] << 16 | (uint32_t)word[3] << 24;
}

/* Nothing is to be gained from bytes that are alike: those of sections differ.
 * Around them is zero. */
static void make_flash(uint8_t *flash, const struct block *b)
{
    for (uint32_t i = 0; i < b->flash_length; i++)
        flash[i] = 0;
    for (uint32_t n = 0; n < b->sections; n++) {
        const uint32_t record = b->sections_at + 16 * n;
        const uint32_t from = block_word(b, record + 8);
        const uint32_t bytes = block_word(b, record + 12) & NOCOPY ? 0 : block_word(b, record + 4);

        for (uint32_t i = from; i < from + bytes; i++)
            flash[i] = (uint8_t)(i * 0x9E3779B1u >> 24);
    }
}

#endif
