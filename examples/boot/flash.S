/*
 * The flash chip: the boot block (docs/BLOCK.md), then what its sections are
 * copied from, or used from where they are. Flash offsets count from the
 * block's first byte, which is the chip's.
 */
#include "board.h"

/* Flags of a section. Without any of them its pages can only be read. */
#define NOCOPY     1
#define WRITABLE   2
#define EXECUTABLE 4

/* A user process's kind word. A stack of 0 pages has sixteen. */
#define KIND_WORD(kind, stack_pages) ((kind) | (stack_pages) << 8)

/* Others can be tried: `run rv32imac -DCONSTANTS_FLAGS=2`. */
#ifndef KERNEL_FLAGS
#define KERNEL_FLAGS EXECUTABLE
#endif
#ifndef CONSTANTS_FLAGS
#define CONSTANTS_FLAGS 0
#endif

    .section .flash, "a"
    .global block
block:
    /* format and length, then count and offset of each kind of record */
    .word 1, block_end - block
    .word (sections - processes) / 16, processes - block
    .word (regions - sections) / 16, sections - block
    .word (block_end - regions) / 8, regions - block

processes: /* entry point, first section, section count, kind word */
    .word KERNEL_CODE, 0, 2, 0
    .word USER_CODE, 2, 3, KIND_WORD(0, 0)
    .word USER_CODE, 5, 3, KIND_WORD(1, 4)

sections: /* virtual address, size, flash offset, flags */
    .word KERNEL_CODE, kernel_end - kernel, kernel - block, KERNEL_FLAGS
    .word KERNEL_DATA, KERNEL_DATA_BYTES, 0, NOCOPY | WRITABLE

    .word USER_CODE, user_2_end - user_2, user_2 - block, EXECUTABLE
    .word USER_DATA, USER_DATA_BYTES, 0, NOCOPY | WRITABLE
    .word CONSTANTS_2, two_end - two, two - block, CONSTANTS_FLAGS

    .word USER_CODE, user_3_end - user_3, user_3 - block, EXECUTABLE
    .word USER_DATA, USER_DATA_BYTES, 0, NOCOPY | WRITABLE
    .word CONSTANTS_3, three_end - three, three - block, 0

regions: /* start, pages */
    .word POWER, 1
    .word UART, 1
block_end:

kernel:
    .incbin "kernel.bin"
kernel_end:
user_2:
    .incbin "user_2.bin"
user_2_end:
two:
    .asciz "two"
two_end:

/* Process 3 is of kind 1. What it does not write has pages of its own here,
 * zero elsewhere, and addresses that start a page too: so it takes no RAM. */
    .balign 4096, 0
user_3:
    .incbin "user_3.bin"
user_3_end:
    .balign 4096, 0
three:
    .asciz "three"
three_end:
