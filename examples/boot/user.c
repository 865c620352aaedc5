/*
 * A process in U mode, built once for PROCESS 2 and once for 3: prints, shows
 * that its data is its own, and tries what its page tables forbid.
 */
#include <stdint.h>

#include "board.h"
#include "print.h"

#if PROCESS == 2
#define CONSTANTS        CONSTANTS_2
#define OTHERS_CONSTANTS CONSTANTS_3
#else
#define CONSTANTS        CONSTANTS_3
#define OTHERS_CONSTANTS CONSTANTS_2
#endif

#define OWN_NUMBER (111 * PROCESS)

uint32_t read_at(uint32_t address);
uint32_t write_at(uint32_t address);
uint32_t run_at(uint32_t address);
uint32_t user(void);

static const struct {
    const char *what;
    uint32_t (*touch)(uint32_t address);
    uint32_t address;
    uint32_t due; /* the page fault that it has to end in */
} attempts[FAULTS] = {
    { "reads the kernel            ", read_at, KERNEL_CODE, LOAD_PAGE_FAULT },
    { "writes its code             ", write_at, USER_CODE, STORE_PAGE_FAULT },
    { "writes its constants        ", write_at, CONSTANTS, STORE_PAGE_FAULT },
    { "runs its data               ", run_at, USER_DATA,
      INSTRUCTION_PAGE_FAULT },
    { "reads the other's constants ", read_at, OTHERS_CONSTANTS,
      LOAD_PAGE_FAULT },
    { "writes the other's constants", write_at, OTHERS_CONSTANTS,
      STORE_PAGE_FAULT },
    { "writes its reserved stack   ", write_at, USER_STACK - 4,
      STORE_PAGE_FAULT },
};

/* The only variable outside the stack: at USER_DATA in both processes. */
static volatile uint32_t number;

/* -------------------------------------------------- calls of the kernel */

static void call_kernel(uint32_t call, uint32_t argument)
{
    register uint32_t a0 __asm__("a0") = argument;
    register uint32_t a7 __asm__("a7") = call;

    __asm__ volatile("ecall" : : "r"(a0), "r"(a7) : "memory");
}

void put(char c)
{
    call_kernel(CALL_PUT, (uint8_t)c);
}

/* ------------------------------- what it does: each counts what is wrong */

static uint32_t keep_number(void)
{
    uint32_t wrong = number != 0;

    number = OWN_NUMBER;
    print("process %u: reads \"%s\" at %x, writes %u at %x\n", PROCESS,
          (const char *)CONSTANTS, CONSTANTS, OWN_NUMBER, (uint32_t)&number);
    call_kernel(CALL_YIELD, 0);
    wrong += number != OWN_NUMBER;
    print("process %u: still reads %u at %x\n", PROCESS, number,
          (uint32_t)&number);
    return wrong;
}

static uint32_t try_what_is_forbidden(void)
{
    uint32_t wrong = 0;

    for (uint32_t i = 0; i < FAULTS; i++) {
        uint32_t cause;

        print("process %u %s | ", PROCESS, attempts[i].what);
        cause = attempts[i].touch(attempts[i].address);
        if (cause == 0)
            print("no page fault at %x\n", attempts[i].address);
        wrong += cause != attempts[i].due;
    }
    return wrong;
}

/* Its status. */
uint32_t user(void)
{
    return keep_number() + try_what_is_forbidden();
}
