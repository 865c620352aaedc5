/* Boards to be loaded: 01's small board, one with programs in flash, one with
 * stacks of several sizes, and boards made from a seed. */
#ifndef BOARD_H
#define BOARD_H

#include <stddef.h>
#include <stdint.h>

#include "layout.h"

#define PAGE_BYTES   4096u
#define MAX_SECTIONS 64
#define MAX_REGIONS  32
#define MAX_BLOCK    (32 + 16 * MAX_PROCESSES + 16 * MAX_SECTIONS + 8 * MAX_REGIONS)
#define MAX_FLASH    65536

#define NOCOPY       1u
#define WRITABLE     2u
#define EXECUTABLE   4u

struct process {
    uint32_t entry, first, count, kind_word;
};

struct section {
    uint32_t address, size, offset, flags;
};

struct region {
    uint32_t start, pages;
};

struct board {
    uint32_t processes, sections, regions;
    struct process process[MAX_PROCESSES];
    struct section section[MAX_SECTIONS];
    struct region region[MAX_REGIONS];
    uint8_t flash[MAX_FLASH]; /* zero after the image */
    uint32_t flash_length, flash_start;
    uint32_t pages; /* of RAM, which starts at IMAGE */
};

/* Its flash is where 01 has it, and not in the machine's memory. */
void small_board(struct board *board);

/* Kind 1, with a section for each reason to copy it; a flash page that two
 * processes reach. Flash is in the machine's memory. */
void flash_board(struct board *board);

/* Stacks of 4, 1, 255 and 16 pages, each with a section right below it; two of
 * the processes are of kind 1. Flash is in the machine's memory. */
void stack_board(struct board *board);

/* Seeds give boards that boot; different seeds, different boards. Flash is in
 * the machine's memory. */
void generated_board(struct board *board, uint64_t seed);

/* The boot block's bytes; answers their number. */
size_t write_block(const struct board *board, uint8_t block[MAX_BLOCK]);

/* The byte at an offset of flash as the machine has it: after the load all of
 * flash is inverted. So what the MMU fetches there is no byte of a copy. */
uint8_t machine_flash(const struct board *board, uint32_t offset);

/* Bytes from a seed, to fill RAM with before a load. */
void fill_random(uint8_t *bytes, size_t length, uint64_t seed);

#endif
