/*
 * The load neither reads nor writes the top four pages of RAM: here they are
 * pages that fault on any access. Exit status 0 where a boot and a refusal
 * both go through.
 */
#define _DEFAULT_SOURCE
#include <stdio.h>
#include <sys/mman.h>

#include "rigpollen.h"

#define PAGES       16u
#define TOP          4u
#define RAM_START   0x40000000u
#define FLASH_START 0x20000000u

static const uint32_t words[30] = {
    1, 120, 2, 32, 3, 64, 1, 112,
    0xFFC00010u, 0, 1, 0,
    0x00010020u, 1, 2, 0,
    0xFFC00000u, 256, 0, 4,
    0x00010020u, 64, 256, 4,
    0x00020000u, 4096, 0, 3,
    0xF0000000u, 2,
};

int main(void)
{
    static uint8_t block[120], flash[320];
    const size_t length = PAGES * RIGPOLLEN_PAGE_BYTES;
    uint32_t answer[RIGPOLLEN_ANSWER_WORDS];
    uint8_t *ram = mmap(NULL, length, PROT_READ | PROT_WRITE,
                        MAP_PRIVATE | MAP_ANONYMOUS, -1, 0);

    if (ram == MAP_FAILED
        || mprotect(ram + (PAGES - TOP) * RIGPOLLEN_PAGE_BYTES,
                    TOP * RIGPOLLEN_PAGE_BYTES, PROT_NONE) != 0) {
        fprintf(stderr, "top_pages: no pages that fault could be had\n");
        return 2;
    }
    for (size_t i = 0; i < sizeof block; i++)
        block[i] = (uint8_t)(words[i / 4] >> 8 * (i % 4));
    if (rigpollen_answer(block, sizeof block, flash, sizeof flash, FLASH_START,
                         ram, length, RAM_START, answer, RIGPOLLEN_ANSWER_WORDS)
        != RIGPOLLEN_LOADED)
        return 1;
    return rigpollen_load(block, sizeof block, flash, 319, FLASH_START, ram,
                          length, RAM_START)
           == RIGPOLLEN_SECTION_PAST_FLASH ? 0 : 1;
}
