/*
 * Loads each board on the bare machine (rv32/run --count) and prints the
 * instructions of the load, those of memset and memcpy of the same bytes, and
 * the stack that the load took.
 */
#include "machine.h"
#include "board.h"

static struct block block;
static uint8_t *const ram = AREA;
static uint8_t *const flash = AREA + RAM_PAGES_MAX * PAGE;

/* The instructions of memset and memcpy of the bytes of a load. */
static uint32_t memory_functions(uint32_t pages)
{
    const uint32_t before = instructions();

    memset(ram, 0, pages * PAGE);
    memcpy(ram, flash, block.copied);
    return instructions() - before;
}

/* Loads board i and prints its line. Returns the number of the refusal. */
static uint32_t measure(int i)
{
    const uint32_t ram_bytes = boards[i].ram_pages * PAGE;
    uint32_t answer[RIGPOLLEN_ANSWER_WORDS], before, load, memory, stack;

    make_block(&block, &boards[i].board);
    make_flash(flash, &block);
    memset(ram, 0xA5, ram_bytes);

    stack_mark();
    before = instructions();
    rigpollen_answer(block.bytes, block.length, flash, block.flash_length, FLASH_START, ram,
                     ram_bytes, (uint32_t)ram, answer, RIGPOLLEN_ANSWER_WORDS);
    load = instructions() - before;
    stack = stack_used();
    if (answer[RIGPOLLEN_ANSWER_NUMBER] != RIGPOLLEN_LOADED) {
        print("refusal %u of %s\n", answer[RIGPOLLEN_ANSWER_NUMBER], boards[i].name);
        return answer[RIGPOLLEN_ANSWER_NUMBER];
    }

    memory = memory_functions(answer[RIGPOLLEN_ANSWER_TAKEN] - TOP_PAGES);
    print("load %u memory %u stack %u of %s\n", load, memory, stack, boards[i].name);
    return RIGPOLLEN_LOADED;
}

int main(void)
{
    int i = 0;

    while (i < BOARDS && measure(i) == RIGPOLLEN_LOADED)
        i++;
    return i < BOARDS;
}
