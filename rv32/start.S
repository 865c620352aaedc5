/*
 * The bare machine (QEMU's riscv32 `virt`): start in M mode, traps, its switch.
 */
    .option norelax
    .section .start, "ax"
    .global _start
_start:
    lla   sp, stack_top
    lla   t0, trapped
    csrw  mtvec, t0
    lla   t0, bss_start
    lla   t1, bss_end
1:  bgeu  t0, t1, 2f
    sw    zero, 0(t0)
    addi  t0, t0, 4
    j     1b
2:  call  main

/* a0: 0, or the status with which QEMU is to end. */
    .global power_off
power_off:
    li    t0, 0x100000
    li    t1, 0x5555
    beqz  a0, 3f
    slli  t1, a0, 16
    li    t2, 0x3333
    or    t1, t1, t2
3:  sw    t1, 0(t0)
    j     3b

/* A trap that no program expects. The stack may be what was wrong. */
    .balign 4
trapped:
    csrr  a0, mcause
    csrr  a1, mepc
    csrr  a2, mtval
    lla   sp, stack_top
    call  on_trap
    li    a0, 3
    j     power_off
