/*
 * The probe loop. It stands alone on one page and is independent of its
 * place, so that a copy of it can probe the page that it stands on itself:
 * QEMU keeps M-mode fetches and MPRV accesses in one TLB, and a load from the
 * virtual page that the code is fetched from would find the fetch's
 * translation there.
 *
 * unsigned int *probe(unsigned int address, unsigned int pages,
 *                     unsigned int mstatus, unsigned int spp,
 *                     unsigned int *out, unsigned int *end);
 *
 * For each page: jump, load, and store back the value just loaded, all in the
 * mode that `mstatus` (MPRV, MPP, SUM) and `spp` (the SPP bit or 0) name.
 * Answers the place after the last record; 0 when they do not fit; 1 when a
 * page broke off in the middle.
 *
 * How the mode is entered: `sret` jumps to the page in the mode. The jump
 * traps in any case (see layout.h) and leaves MPP at the mode, which MPRV
 * uses for the load and the store. A load that traps comes from M and leaves
 * MPP at M, so before the store S is entered by the jump again, and U by an
 * `mret` from M to M, which leaves MPP at U. Writing MPP would do the same
 * but makes QEMU empty its TLB each time. `sret` keeps MPRV up to version
 * 1.11 of the privileged architecture; the machine has an older one.
 */
#include "layout.h"

    .option norelax
    .section .probe, "ax"
    .balign 4096
    .global probe
probe:
    addi  sp, sp, -64
    sw    s0, 0(sp)
    sw    s1, 4(sp)
    sw    s2, 8(sp)
    sw    s3, 12(sp)
    sw    s4, 16(sp)
    sw    s5, 20(sp)
    sw    s6, 24(sp)
    sw    s7, 28(sp)
    sw    s8, 32(sp)
    sw    s9, 36(sp)
    sw    s10, 40(sp)
    sw    s11, 44(sp)
    mv    s0, a0            /* s0 the page's virtual address */
    mv    s1, a1            /* s1 pages to go */
    mv    s2, a2            /* s2 mstatus with MPRV */
    mv    s3, a3            /* s3 SPP or 0 */
    mv    s4, a4            /* s4 next record */
    li    t0, 3 * 4 + 4096
    sub   s5, a5, t0        /* s5 last place that has room for a record */
    li    s6, 0             /* s6 outcome of the page before: none yet */
    lla   s8, jumped        /* s8 to s11: where to go on after a trap */
    lla   s9, loaded
    lla   s10, jumped_again
    lla   s11, stored
    lla   t0, trapped
    csrrw s7, mtvec, t0     /* s7 the caller's handler */
    csrw  mstatus, s2
    sfence.vma

next_page:
    csrw  sepc, s0
    csrs  mstatus, s3
    mv    a1, s8
    sret
jumped:
    mv    a2, a0            /* a2 the jump's cause */
    mv    a3, a0            /* a3 the same, of the second jump */
    li    a0, 0
    mv    a1, s9
    lw    a5, 0(s0)
loaded:
    mv    a4, a0            /* a4 the load's cause */
    beqz  a0, store
    li    a5, 0             /* nothing was loaded */
    mv    a1, s10
    beqz  s3, back_to_u
    csrw  sepc, s0
    csrs  mstatus, s3
    sret
jumped_again:
    mv    a3, a0
store:
    li    a0, 0
    mv    a1, s11
    sw    a5, 0(s0)
stored:
    slli  a2, a2, 24
    slli  a3, a3, 16
    or    a2, a2, a3
    slli  a3, a4, 8
    or    a2, a2, a3
    or    a2, a2, a0        /* a2 the outcome */
    bne   a2, s6, record
    beqz  a4, record
advance:
    li    t0, 4096
    add   s0, s0, t0
    addi  s1, s1, -1
    bnez  s1, next_page
    csrw  mstatus, zero
    mv    a0, s4

leave:                      /* MPRV is off, a0 is the answer */
    csrw  mtvec, s7
    sfence.vma
    lw    s0, 0(sp)
    lw    s1, 4(sp)
    lw    s2, 8(sp)
    lw    s3, 12(sp)
    lw    s4, 16(sp)
    lw    s5, 20(sp)
    lw    s6, 24(sp)
    lw    s7, 28(sp)
    lw    s8, 32(sp)
    lw    s9, 36(sp)
    lw    s10, 40(sp)
    lw    s11, 44(sp)
    addi  sp, sp, 64
    ret

back_to_u:                  /* from M to M: on to `store` with MPP at U */
    mv    a0, a2
    csrw  mepc, s10
    mret

    /* A page whose outcome is new, or whose bytes are wanted. */
record:
    mv    s6, a2
    csrw  mstatus, zero
    li    a0, 0
    bgtu  s4, s5, leave
    li    t0, RECORD_PAGE
    sw    t0, 0(s4)
    sw    s0, 4(s4)
    sw    s6, 8(s4)
    addi  s4, s4, 12
    bnez  a4, recorded
    lla   a1, broken
    mv    a4, s0
    li    t0, 4096
    add   a3, s0, t0        /* a3 end of the page; 0 for the last one */
copy:
    csrw  mstatus, s2
    sfence.vma
    lw    t0, 0(a4)
    lw    t1, 4(a4)
    lw    t2, 8(a4)
    lw    t3, 12(a4)
    lw    t4, 16(a4)
    lw    t5, 20(a4)
    lw    t6, 24(a4)
    lw    a5, 28(a4)
    csrw  mstatus, zero
    sfence.vma
    sw    t0, 0(s4)
    sw    t1, 4(s4)
    sw    t2, 8(s4)
    sw    t3, 12(s4)
    sw    t4, 16(s4)
    sw    t5, 20(s4)
    sw    t6, 24(s4)
    sw    a5, 28(s4)
    addi  a4, a4, 32
    addi  s4, s4, 32
    bne   a4, a3, copy
recorded:
    csrw  mstatus, s2
    sfence.vma
    j     advance
broken:
    csrw  mstatus, zero
    li    a0, 1
    j     leave

    .balign 4
trapped:                    /* cause into a0, on at a1 */
    csrr  a0, mcause
    jr    a1

    .section .start, "ax"
    .global _start
_start:
    lla   sp, stack_top
    lla   t0, lost
    csrw  mtvec, t0
    csrw  mie, zero
    li    t0, 0x02004000    /* the timer: not before the end of time, for a */
    li    t1, -1            /* pending interrupt slows QEMU even if masked */
    sw    t1, 4(t0)
    sw    t1, 0(t0)
    li    t0, -1            /* PMP entry 0: all of memory, for S and U */
    csrw  pmpaddr0, t0      /* read and write, never execute */
    li    t0, 0x1B
    csrw  pmpcfg0, t0
    call  run_passes
stop:
    li    t0, 0x100000      /* the machine's switch */
    li    t1, 0x5555
    sw    t1, 0(t0)
    j     stop
    .balign 4
lost:                       /* a trap in the stub's own code */
    csrw  mstatus, zero
    li    t0, RECORDS
    li    t1, STATE_TRAP
    sw    t1, 0(t0)
    j     stop
