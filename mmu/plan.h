/*
 * 01's order of pages and 01's answer to what each process sees, with 02's
 * sections straight from flash and 02's stacks, worked out from the board's
 * records and flash alone: no table is read here, and the library is not
 * called.
 */
#ifndef PLAN_H
#define PLAN_H

#include "board.h"

#define NO_PAGE 0xFFFFFFFFu
#define BLOCKS  1024 /* of 4 MiB */

/* 02, A7: what a kind word says, of the stack in a user process's alone. */
uint32_t process_kind(const struct process *process);
uint32_t stack_pages(const struct process *process);

#define STACK_END 0x80000u /* the virtual page after a stack */

/* RAM pages, counted from RAM's start. */
struct plan {
    uint32_t section[MAX_SECTIONS]; /* of a section's first page; the next
                                       ones lie below. NO_PAGE where it is
                                       used straight from flash */
    uint32_t tracker, tracker_pages; /* likewise */
    uint32_t list, block;
    uint32_t root[MAX_PROCESSES];
    uint32_t leaf[MAX_PROCESSES][BLOCKS]; /* or NO_PAGE */
    uint32_t taken;
};

/* The board must have as many pages as it needs. */
void make_plan(const struct board *board, struct plan *plan);
uint32_t pages_needed(const struct board *board);

uint32_t satp_word(const struct plan *plan, uint32_t process);

/* What is seen at a virtual page: nothing, the reserve of a stack, or a page
 * with its rights. */
#define SEEN_NOTHING  0u
#define SEEN_RESERVED 0x40u
#define SEEN_PAGE     0x80u
#define SEEN_READ     1u
#define SEEN_WRITE    2u
#define SEEN_EXECUTE  4u
#define SEEN_USER     8u
#define SEEN_FLASH    0x10u /* no right: the page is one of flash */

/* Processes count from 0 here, as their records do. For a page, `bytes` gets
 * its contents, for one of flash those that the machine has. */
uint32_t seen(const struct board *board, const struct plan *plan,
              uint32_t process, uint32_t page, uint8_t bytes[PAGE_BYTES]);

#endif
