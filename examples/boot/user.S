/* A process's assembly: the start, and its ways to touch an address. */
#include "board.h"

/* For program.ld: half of the data section is for the stack. */
    .global code, variables, variables_bytes
    .set  code, USER_CODE
    .set  variables, USER_DATA
    .set  variables_bytes, USER_DATA_BYTES / 2

    .section .start, "ax"
    .global start
start:
    li    sp, USER_DATA + USER_DATA_BYTES /* USER_STACK has no RAM yet */
    call  user
    li    a7, CALL_END
    ecall

/* uint32_t read_at(uint32_t address) and so on: 0, or the page fault's cause.
 * After a fault the kernel goes on at ra, so these call nothing. */
    .text
    .global read_at, write_at, run_at
read_at:
    lw    t0, 0(a0)
    li    a0, 0
    ret
write_at:
    sw    zero, 0(a0)
    li    a0, 0
    ret
run_at:
    jr    a0
