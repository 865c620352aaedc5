/*
 * The ROM's assembly: the start, the way into the kernel, and what the kernel
 * calls the ROM for.
 */
#include "board.h"

#define MPP         0x1800 /* of mstatus: the mode that mret goes to */
#define MPP_S       0x0800

/* Physical memory protection: the guard of the ROM's stack, in no mode; then
 * all of memory, for page tables to rule. */
#define PMP_GUARD   (GUARD >> 2 | (GUARD_BYTES / 8 - 1))
#define PMP_NOTHING 0x98
#define PMP_ALL     0x1F

/* Calls and page faults of U, and page faults of S, go to the kernel. */
#define DELEGATED   (1 << CALL_FROM_U | 1 << INSTRUCTION_PAGE_FAULT \
                     | 1 << LOAD_PAGE_FAULT | 1 << STORE_PAGE_FAULT)

/* For program.ld: no variables. */
    .global code, variables, variables_bytes
    .set  code, ROM
    .set  variables, RAM
    .set  variables_bytes, 0

    .section .start, "ax"
    .global start
start:
    li    sp, ROM_STACK
    lla   t0, trapped
    csrw  mtvec, t0
    li    t0, PMP_GUARD
    csrw  pmpaddr0, t0
    li    t0, PMP_NOTHING
    csrw  pmpcfg0, t0
    call  rom
    li    a0, 1             /* it comes back only where nothing was booted */
    j     power_off

/* void enter(uint32_t satp, uint32_t entry_point): on to S mode, paging on. */
    .text
    .global enter
enter:
    li    t0, -1
    csrw  pmpaddr1, t0
    li    t0, PMP_ALL << 8
    csrs  pmpcfg0, t0
    li    t0, DELEGATED
    csrw  medeleg, t0
    csrw  satp, a0
    sfence.vma
    fence.i                 /* what will run was just written, as data */
    csrw  mepc, a1
    li    t0, MPP
    csrc  mstatus, t0
    li    t0, MPP_S
    csrs  mstatus, t0
    mret

/* Traps into M mode: the kernel's calls, and what nobody expects. */
    .balign 4
trapped:
    csrw  mscratch, t0
    csrr  t0, mcause
    addi  t0, t0, -CALL_FROM_S
    bnez  t0, unexpected
    addi  t0, a7, -CALL_END
    beqz  t0, power_off
    addi  t0, a7, -CALL_PUT
    bnez  t0, unexpected
    li    t0, UART
    sb    a0, 0(t0)
    csrr  t0, mepc
    addi  t0, t0, 4         /* on after the ecall */
    csrw  mepc, t0
    csrr  t0, mscratch
    mret

unexpected:
    li    sp, ROM_STACK
    csrr  a0, mcause
    csrr  a1, mepc
    csrr  a2, mtval
    call  say_trap
    li    a0, 1

power_off:                  /* a0: the status */
    li    t0, POWER
    li    t1, POWER_OFF
    beqz  a0, 1f
    slli  t1, a0, 16
    li    t2, POWER_FAIL
    or    t1, t1, t2
1:  sw    t1, 0(t0)
    j     1b
