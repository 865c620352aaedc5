/*
 * A ROM stub: loads what the flash chip holds and starts the kernel, in S mode
 * with paging on. All of RAM is lent to the loader. The stub's only variables
 * are on its stack, in the top pages of RAM, which the load leaves alone.
 */
#include "board.h"
#include "print.h"
#include "rigpollen.h"

void enter(uint32_t satp, uint32_t entry_point) __attribute__((noreturn));
void say_trap(uint32_t cause, uint32_t at, uint32_t value);
void rom(void);

/* The block is at the start of flash; its offsets count from there too. */
static const uint8_t *const flash = (const uint8_t *)FLASH;
static uint8_t *const ram = (uint8_t *)RAM;

/* ------------------------------------------------------------- messages */

void put(char c)
{
    *(volatile char *)UART = c;
}

void say_trap(uint32_t cause, uint32_t at, uint32_t value)
{
    print("rom: unexpected trap: cause %u, instruction at %x, value %x\n",
          cause, at, value);
}

/* ------------------------------------------------- what is to be started */

/* As the block itself says, but never past flash: then it is refused (5). */
static uint32_t block_length(void)
{
    const uint32_t length = ((const uint32_t *)FLASH)[1];

    return length < FLASH_BYTES ? length : FLASH_BYTES;
}

/* What a process starts with; 0, or the reason why there is nothing. */
static uint32_t process(uint32_t number, uint32_t words[RIGPOLLEN_LIST_WORDS])
{
    return rigpollen_process(flash, block_length(), flash, FLASH_BYTES, FLASH,
                             RAM_BYTES, RAM, number, words,
                             RIGPOLLEN_LIST_WORDS);
}

/* The process list, found by way of satp's tables as the kernel will find it;
 * a null pointer if there is none. */
static const uint32_t *process_list(uint32_t satp)
{
    uint32_t page[RIGPOLLEN_WALK_WORDS];

    if (rigpollen_walk(ram, RAM_BYTES, RAM, satp & RIGPOLLEN_SATP_ROOT,
                       RIGPOLLEN_PROCESS_LIST_ADDRESS, page,
                       RIGPOLLEN_WALK_WORDS) != RIGPOLLEN_WALK_PAGE)
        return 0;
    return (const uint32_t *)(page[RIGPOLLEN_WALK_NUMBER]
                              * RIGPOLLEN_PAGE_BYTES);
}

/* Whether the list has the words that rigpollen_process gives. */
static int agrees(const uint32_t *list)
{
    uint32_t words[RIGPOLLEN_LIST_WORDS];

    for (uint32_t number = 1; process(number, words) == 0; number++) {
        if (list[RIGPOLLEN_LIST_SATP] != words[RIGPOLLEN_LIST_SATP]
            || list[RIGPOLLEN_LIST_ENTRY] != words[RIGPOLLEN_LIST_ENTRY]
            || list[RIGPOLLEN_LIST_STACK] != words[RIGPOLLEN_LIST_STACK])
            return 0;
        list += RIGPOLLEN_LIST_WORDS;
    }
    return 1;
}

/* Says where the code of each process is. */
static void say_places(void)
{
    uint32_t words[RIGPOLLEN_LIST_WORDS], page[RIGPOLLEN_WALK_WORDS];

    for (uint32_t number = 1; process(number, words) == 0; number++) {
        uint32_t place;

        if (rigpollen_walk(ram, RAM_BYTES, RAM,
                           words[RIGPOLLEN_LIST_SATP] & RIGPOLLEN_SATP_ROOT,
                           words[RIGPOLLEN_LIST_ENTRY], page,
                           RIGPOLLEN_WALK_WORDS) != RIGPOLLEN_WALK_PAGE)
            continue;
        place = page[RIGPOLLEN_WALK_NUMBER] * RIGPOLLEN_PAGE_BYTES;
        print("rom: process %u: its code is at %x, in %s\n", number, place,
              place - RAM < RAM_BYTES ? "RAM" : "flash");
    }
}

/* ------------------------------------------------------------- the boot */

/* Returns where nothing was booted. */
static void start_kernel(void)
{
    uint32_t kernel[RIGPOLLEN_LIST_WORDS];
    const uint32_t *list;

    if (process(1, kernel) != RIGPOLLEN_LOADED)
        return;
    list = process_list(kernel[RIGPOLLEN_LIST_SATP]);
    if (list == 0 || !agrees(list)) {
        print("rom: the process list does not have what it should\n");
        return;
    }
    print("rom: starts the kernel: satp %x, entry point %x, as the process "
          "list at %x has them\n", kernel[RIGPOLLEN_LIST_SATP],
          kernel[RIGPOLLEN_LIST_ENTRY], (uint32_t)list);
    enter(kernel[RIGPOLLEN_LIST_SATP], kernel[RIGPOLLEN_LIST_ENTRY]);
}

void rom(void)
{
    uint32_t answer[RIGPOLLEN_ANSWER_WORDS];

    if (rigpollen_answer(flash, block_length(), flash, FLASH_BYTES, FLASH, ram,
                         RAM_BYTES, RAM, answer, RIGPOLLEN_ANSWER_WORDS)
        != RIGPOLLEN_LOADED) {
        print("rom: refused %u at %u, byte %u\n",
              answer[RIGPOLLEN_ANSWER_NUMBER], answer[RIGPOLLEN_ANSWER_PLACE],
              answer[RIGPOLLEN_ANSWER_OFFSET]);
        return;
    }
    print("rom: loaded, %u of %u pages of RAM taken\n",
          answer[RIGPOLLEN_ANSWER_TAKEN],
          (uint32_t)RAM_BYTES / RIGPOLLEN_PAGE_BYTES);
    say_places();
    start_kernel();
}
