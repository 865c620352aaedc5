/*
 * What the programs on the bare machine share. The machine has 512 MiB of RAM
 * from 0x80000000 on: the program and its stack, then AREA, then DATA.
 */
#ifndef MACHINE_H
#define MACHINE_H

#include <stddef.h>
#include <stdint.h>

#define AREA      ((uint8_t *)0x80400000) /* free to use */
#define AREA_END  ((uint8_t *)0x84000000)
#define DATA      ((const uint8_t *)0x84000000) /* rv32/run --data */

void print(const char *format, ...); /* %u %x %s and nothing else */
void power_off(uint32_t status) __attribute__((noreturn));

/* Where a trap goes unless a program changes mtvec: it is told, and the machine
 * ends with 3. A program may have its own. */
void on_trap(uint32_t cause, uint32_t at, uint32_t value);

/* memory.c: what compilers call by themselves. */
void *memset(void *to, int byte, size_t n);
void *memcpy(void *to, const void *from, size_t n);
void *memmove(void *to, const void *from, size_t n);

/* Bytes from `at` on that are painted, of at most STACK_WATCHED. */
uint32_t painted(const uint8_t *at);

/* What a call takes of the stack: `stack_mark` before it and `stack_used` after
 * it, both in the function that makes the call. The answer is how far below
 * the caller's stack pointer the call has written, of at most STACK_WATCHED
 * bytes. */
#define STACK_WATCHED 16384u
#define STACK_PAINT   0xA5u

static inline __attribute__((always_inline)) uint8_t *stack_pointer(void)
{
    uint8_t *sp;

    __asm__ volatile("mv %0, sp" : "=r"(sp) : : "memory");
    return sp;
}

static inline __attribute__((always_inline)) void stack_mark(void)
{
    memset(stack_pointer() - STACK_WATCHED, STACK_PAINT, STACK_WATCHED);
}

static inline __attribute__((always_inline)) uint32_t stack_used(void)
{
    return STACK_WATCHED - painted(stack_pointer() - STACK_WATCHED);
}

/* Instructions so far; exact where rv32/run has --count. */
static inline uint32_t instructions(void)
{
    uint32_t n;

    __asm__ volatile("csrr %0, minstret" : "=r"(n) : : "memory");
    return n;
}

static inline uint32_t get_word(const uint8_t *at)
{
    return at[0] | (uint32_t)at[1] << 8 | (uint32_t)at[2] << 16
           | (uint32_t)at[3] << 24;
}

static inline void put_word(uint8_t *at, uint32_t word)
{
    for (int i = 0; i < 4; i++)
        at[i] = (uint8_t)(word >> 8 * i);
}

#endif
