/*
 * A kernel in S mode: starts the processes that the process list names, serves
 * their calls, and reports their page faults. A process goes on after a fault
 * as if the function in which it happened had returned the cause.
 */
#include "board.h"
#include "print.h"
#include "rigpollen.h"

#define MAX_PROCESSES 16

/* kernel.S knows where the registers and satp lie. */
struct process {
    uint32_t registers[32];
    uint32_t satp;
    uint32_t number;
    uint32_t ended;
};
#define PC 0 /* in the place of x0, which is always 0 */
#define RA 1
#define SP 2
#define A0 10
#define A7 17

struct process processes[MAX_PROCESSES]; /* from process 2 on */
static uint32_t count, running, failed, faults;

struct process *kernel(void);
struct process *on_trap(struct process *process, uint32_t cause,
                        uint32_t address, uint32_t in_kernel);

/* ----------------------------------------------------- calls of the ROM */

static void call_rom(uint32_t call, uint32_t argument)
{
    register uint32_t a0 __asm__("a0") = argument;
    register uint32_t a7 __asm__("a7") = call;

    __asm__ volatile("ecall" : : "r"(a0), "r"(a7) : "memory");
}

void put(char c)
{
    call_rom(CALL_PUT, (uint8_t)c);
}

static void __attribute__((noreturn)) end(uint32_t status)
{
    for (;;)
        call_rom(CALL_END, status);
}

/* ------------------------------------------------------------ processes */

/* Words of the process list and of the block's copy, as the loader mapped
 * them for the kernel. */
static uint32_t listed(uint32_t number, uint32_t word)
{
    return ((const uint32_t *)RIGPOLLEN_PROCESS_LIST_ADDRESS)
        [RIGPOLLEN_LIST_WORDS * (number - 1) + word];
}

static uint32_t process_count(void)
{
    return ((const uint32_t *)RIGPOLLEN_BLOCK_COPY_ADDRESS)[2];
}

static void start(struct process *process, uint32_t number)
{
    process->number = number;
    process->satp = listed(number, RIGPOLLEN_LIST_SATP);
    process->registers[PC] = listed(number, RIGPOLLEN_LIST_ENTRY);
    process->registers[SP] = listed(number, RIGPOLLEN_LIST_STACK);
    print("kernel: starts process %u: satp %x, entry point %x, "
          "stack pointer %x\n", number, process->satp,
          process->registers[PC], process->registers[SP]);
}

/* The next process that has not ended. Where there is none the run ends, with
 * 0 if each ended with 0 and there were as many faults as are due. */
static struct process *next(uint32_t i)
{
    if (running == 0) {
        print("kernel: %u page faults, %u due; %u processes ended, "
              "%u of them failed\n", faults, FAULTS * count, count, failed);
        end(failed != 0 || faults != FAULTS * count);
    }
    do
        i = (i + 1) % count;
    while (processes[i].ended);
    return &processes[i];
}

struct process *kernel(void)
{
    count = process_count() - 1;
    running = count;
    for (uint32_t i = 0; i < count; i++)
        start(&processes[i], i + 2);
    return next(count - 1);
}

/* ---------------------------------------------------------------- traps */

static struct process *on_call(struct process *process)
{
    const uint32_t argument = process->registers[A0];

    process->registers[PC] += 4; /* after the ecall */
    switch (process->registers[A7]) {
    case CALL_PUT:
        put((char)argument);
        return process;
    case CALL_END:
        process->ended = 1;
        failed += argument != 0;
        running--;
        break;
    }
    return next((uint32_t)(process - processes));
}

static const char *name(uint32_t cause)
{
    return cause == LOAD_PAGE_FAULT    ? "load"
           : cause == STORE_PAGE_FAULT ? "store"
                                       : "instruction";
}

static struct process *on_fault(struct process *process, uint32_t cause,
                                uint32_t address)
{
    print("kernel: process %u: %s page fault at %x\n", process->number,
          name(cause), address);
    if (++faults > FAULTS * count) {
        print("kernel: more page faults than are due\n");
        end(1);
    }
    process->registers[PC] = process->registers[RA];
    process->registers[A0] = cause;
    return process;
}

struct process *on_trap(struct process *process, uint32_t cause,
                        uint32_t address, uint32_t in_kernel)
{
    if (in_kernel) {
        print("kernel: its own %s page fault at %x\n", name(cause), address);
        end(1);
    }
    return cause == CALL_FROM_U ? on_call(process)
                                : on_fault(process, cause, address);
}
