/* The kernel's assembly: the start, and the way in and out of a process. */
#include "board.h"

#define SPP  0x100          /* of sstatus: S mode is where a trap came from */

/* Where things lie in struct process (kernel.c); x1 is at 4, x2 at 8 .. */
#define PC   0
#define SP   8
#define SATP 128

#define STACK (KERNEL_DATA + KERNEL_DATA_BYTES)

/* For program.ld: half of the data section is for the stack. */
    .global code, variables, variables_bytes
    .set  code, KERNEL_CODE
    .set  variables, KERNEL_DATA
    .set  variables_bytes, KERNEL_DATA_BYTES / 2

    .macro all_but_sp instruction
    .irp  n, 1, 3, 4, 5, 6, 7, 8, 9, 10, 11, 12, 13, 14, 15, 16, 17, 18, 19, \
             20, 21, 22, 23, 24, 25, 26, 27, 28, 29, 30, 31
    \instruction x\n, 4 * \n(sp)
    .endr
    .endm

    .section .start, "ax"
    .global start
start:
    li    sp, STACK
    lla   t0, trapped
    csrw  stvec, t0
    lla   t0, processes     /* a fault of the kernel's own is saved there */
    csrw  sscratch, t0
    call  kernel            /* a0: the first to run */

run:
    mv    sp, a0
    csrw  sscratch, sp
    lw    t0, PC(sp)
    csrw  sepc, t0
    lw    t0, SATP(sp)      /* the kernel's pages are the same in all */
    csrw  satp, t0
    sfence.vma
    li    t0, SPP
    csrc  sstatus, t0
    all_but_sp lw
    lw    sp, SP(sp)
    sret

    .balign 4
trapped:
    csrrw sp, sscratch, sp  /* sp: the process that ran */
    all_but_sp sw
    csrr  t0, sscratch
    sw    t0, SP(sp)
    csrr  t0, sepc
    sw    t0, PC(sp)
    mv    a0, sp
    csrr  a1, scause
    csrr  a2, stval
    csrr  a3, sstatus
    andi  a3, a3, SPP
    li    sp, STACK
    call  on_trap           /* a0: the one to go on with */
    j     run
