/*
 * The board, QEMU's riscv32 `virt` machine, and what its programs agree on.
 * For C and assembly.
 */
#ifndef BOARD_H
#define BOARD_H

/* --------------------------------------------------- physical addresses */

#define POWER       0x00100000 /* a word written here ends the run,       */
#define POWER_OFF   0x5555     /* this one with status 0,                 */
#define POWER_FAIL  0x3333     /* this one with that in its upper half    */
#define UART        0x10000000 /* prints a byte that is written here      */
#define ROM         0x20000000 /* first flash chip: the ROM stub          */
#define FLASH       0x22000000 /* second: boot block, kernel, processes   */
#define FLASH_BYTES 0x02000000
#define RAM         0x80000000
#define RAM_BYTES   0x01000000

/* The top four pages of RAM, which the load leaves alone: the ROM's stack
 * and below it its guard. */
#define ROM_STACK   (RAM + RAM_BYTES) /* grows down */
#define GUARD_BYTES 0x2000
#define GUARD       (RAM + RAM_BYTES - 0x4000)

/* ---------------------------------------------------- virtual addresses */

#define KERNEL_CODE       0xFFC00000
#define KERNEL_DATA       0xFFC10000
#define KERNEL_DATA_BYTES 0x2000
#define USER_CODE         0x00010000 /* both processes have these two,    */
#define USER_DATA         0x00020000 /* each with pages of its own        */
#define USER_DATA_BYTES   0x1000
#define CONSTANTS_2       0x00030000 /* process 2 alone                   */
#define CONSTANTS_3       0x00040000 /* process 3 alone                   */
#define USER_STACK        0x80000000 /* grows down; it has no RAM yet     */

/* ----------------- calls, by ecall: a7 says which, a0 is its argument */

#define CALL_END   0 /* with this status: a process, or the kernel the run */
#define CALL_PUT   1 /* print this character                               */
#define CALL_YIELD 2 /* let the other process run (a call of the kernel)   */

/* ---------------------------------------------------------- trap causes */

#define CALL_FROM_U            8
#define CALL_FROM_S            9
#define INSTRUCTION_PAGE_FAULT 12
#define LOAD_PAGE_FAULT        13
#define STORE_PAGE_FAULT       15

/* Page faults that each of the two processes brings about. */
#define FAULTS 7

#endif
