/*
 * Boot blocks of boards that are given as tables.
 */
#ifndef BLOCK_H
#define BLOCK_H

#include "rigpollen.h"

#define PAGE RIGPOLLEN_PAGE_BYTES
#define SLOT (1024u * PAGE) /* what one root entry covers */

/* Flags of a section. */
#define NOCOPY     RIGPOLLEN_NOCOPY
#define WRITABLE   RIGPOLLEN_WRITABLE
#define EXECUTABLE RIGPOLLEN_EXECUTABLE
#define FLAGS      (NOCOPY | WRITABLE | EXECUTABLE)

/* With the flags of a run, and not in the record: the section is used straight
 * from flash, and its process has kind 1. It begins a page of flash, at the
 * sub-page offset of its address, and what comes after it begins the next. */
#define STRAIGHT   8u


/* Sections of one size in a row, each `step` after the one before. */
struct run {
    uint32_t count, address, step, size, flags;
};

struct process {
    uint32_t entry_point;
    struct run runs[2];
};

/* Processes that are all alike. */
struct group {
    uint32_t count;
    struct process process;
};

/* The kernel is the first group. Regions lie one after the other. */
struct board {
    struct group groups[3];
    struct {
        uint32_t count, start, pages;
    } regions;
};

/* A block; where its section and region records are; how many sections it has
 * so far, and which of them are used straight from flash; the length of flash,
 * where they lie one after the other; and how many bytes of it are copied. */
struct block {
    uint8_t bytes[RIGPOLLEN_BLOCK_BYTES_MAX];
    uint32_t length, sections_at, regions_at, sections;
    uint8_t straight[RIGPOLLEN_SECTIONS_MAX];
    uint32_t flash_length, copied;
};

static void put_words(uint8_t *at, const uint32_t *words, uint32_t count)
{
    for (uint32_t i = 0; i < 4 * count; i++)
        at[i] = (uint8_t)(words[i / 4] >> 8 * (i % 4));
}

static uint32_t whole_pages(uint32_t bytes)
{
    return (bytes + PAGE - 1) / PAGE * PAGE;
}

/* Where a section's bytes are in flash; flash gets that much longer. */
static uint32_t place_in_flash(struct block *b, uint32_t address, uint32_t size, int straight)
{
    const uint32_t offset = straight ? whole_pages(b->flash_length) + address % PAGE : b->flash_length;

    b->flash_length = straight ? whole_pages(offset + size) : offset + size;
    b->copied += straight ? 0 : size;
    return offset;
}

static void put_run(struct block *b, const struct run *run)
{
    const int straight = (run->flags & STRAIGHT) != 0;

    for (uint32_t i = 0; i < run->count; i++) {
        const uint32_t address = run->address + i * run->step;
        const uint32_t offset = run->flags & NOCOPY ? 0 : place_in_flash(b, address, run->size, straight);
        const uint32_t section[4] = { address, run->size, offset, run->flags & FLAGS };

        put_words(b->bytes + b->sections_at + 16 * b->sections, section, 4);
        b->straight[b->sections++] = (uint8_t)straight;
    }
}

static uint32_t sections_of(const struct process *p)
{
    return p->runs[0].count + p->runs[1].count;
}

static void put_process(struct block *b, uint32_t i, const struct process *p)
{
    const uint32_t kind_word = ((p->runs[0].flags | p->runs[1].flags) & STRAIGHT) != 0;
    const uint32_t record[4] = { p->entry_point, b->sections, sections_of(p), kind_word };

    put_words(b->bytes + 32 + 16 * i, record, 4);
    put_run(b, &p->runs[0]);
    put_run(b, &p->runs[1]);
}

static void put_header(struct block *b, const struct board *board)
{
    uint32_t p = 0, s = 0;

    for (int g = 0; g < 3; g++) {
        p += board->groups[g].count;
        s += board->groups[g].count * sections_of(&board->groups[g].process);
    }
    b->sections_at = 32 + 16 * p;
    b->regions_at = b->sections_at + 16 * s;
    b->length = b->regions_at + 8 * board->regions.count;
    put_words(b->bytes, (const uint32_t[8]){ 1, b->length, p, 32, s, b->sections_at,
                                             board->regions.count, b->regions_at }, 8);
}

static void make_block(struct block *b, const struct board *board)
{
    uint32_t i = 0;

    b->sections = b->flash_length = b->copied = 0;
    put_header(b, board);
    for (int g = 0; g < 3; g++)
        for (uint32_t n = 0; n < board->groups[g].count; n++)
            put_process(b, i++, &board->groups[g].process);
    for (uint32_t n = 0; n < board->regions.count; n++) {
        const uint32_t pages = board->regions.pages;

        put_words(b->bytes + b->regions_at + 8 * n,
                  (const uint32_t[2]){ board->regions.start + n * pages * PAGE, pages }, 2);
    }
}

#endif
