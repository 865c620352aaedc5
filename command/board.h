/*
 * A board: a boot block, a flash image and where RAM and flash are. Whether it
 * boots, and all that is known of it then, comes from the library.
 */
#ifndef BOARD_H
#define BOARD_H

#include "records.h"
#include "rigpollen.h"

/* What is at a virtual address of a process. */
struct seen {
    uint32_t walk;   /* RIGPOLLEN_WALK_ABSENT, _RESERVED or _PAGE */
    uint32_t rights; /* of a page */
    uint32_t page;   /* its physical page number */
};

struct board {
    struct bytes block, flash;
    uint32_t flash_start, ram_start;
    uint64_t ram_pages;
    uint32_t answer[RIGPOLLEN_ANSWER_WORDS];
    /* After `load_board`: RAM, and each process's root table. */
    uint8_t *ram;
    uint32_t roots[RIGPOLLEN_PROCESSES_MAX + 1];
};

/* The answer to a load, into `answer`; no RAM is needed. The number, too. */
uint32_t check_board(struct board *board);

/* The pages of the smallest RAM on which a board boots that boots or draws 12:
 * the same number at any start where RAM draws none of 1, 11 and 13. It is
 * 4,097 if no RAM is large enough, and 0 if there is no room for RAM anywhere
 * beside flash and regions. */
uint32_t smallest_ram(const struct board *board);

/* Load a board that boots. 0 where there is no memory for it; standard error
 * has a line on it then. */
int load_board(struct board *board);

/* What a process, from 1 on, has at a virtual address after the load. */
struct seen seen_at(const struct board *board, uint32_t process,
                    uint32_t address);

/* The byte there; -1 where there is no page of RAM or flash. */
int byte_at(const struct board *board, uint32_t process, uint32_t address);

/* The owner of each RAM page, as the page tracker has it: 0 is free. RAM has
 * no more pages than the tracker's first page has bytes. */
void read_tracker(uint8_t owners[RIGPOLLEN_PAGE_BYTES], const struct board *board);

/* How many pages of RAM the page tracker gives to a process. */
uint32_t pages_of(const struct board *board, uint32_t process);

/* How many pages just below the stack pointer a process has reserved. */
uint32_t reserved_pages(const struct board *board, uint32_t process);

/* Whether a physical page is one of RAM's, and which. */
int in_ram(const struct board *board, uint32_t page, uint32_t *ram_page);

#endif
