/*
 * Lengths and areas at the limits of a 32-bit machine, as include/rigpollen.h
 * has them: flash of 2^31 - 1 bytes, of which only the last two pages are
 * memory, at the top of the physical addresses; and lengths of RAM that are
 * small numbers if their upper half is dropped. Ends with 1 if an answer is not
 * as expected.
 */
#include "machine.h"
#include "rigpollen.h"

#define PAGES        16u
#define SECTION_PAGE 11u /* below the four pages at the top */
#define RAM_START    0x40000000u
#define SECTION      0xFFC00000u
#define USER_SECTION 0x00010000u
#define EXECUTABLE   4u

#define FLASH_LENGTH 0x7FFFFFFFu
#define FLASH_START  0x80000000u
#define FLASH_MEMORY (2 * RIGPOLLEN_PAGE_BYTES) /* its last bytes, at AREA */
#define FLASH_END    (AREA + FLASH_MEMORY)
#define FLASH        (FLASH_END - FLASH_LENGTH)
#define LAST_WHOLE   0x7FFFE000u /* offset of its last whole page */
#define RAM          (FLASH_END + RIGPOLLEN_PAGE_BYTES)
#define RAM_LENGTH   (PAGES * RIGPOLLEN_PAGE_BYTES)
#define WORDS        ((uint32_t *)(RAM + RAM_LENGTH)) /* outside flash */
#define BYTES        (RAM + RAM_LENGTH + RIGPOLLEN_PAGE_BYTES)
#define UPPER_HALF   0x100000000u

#define BLOCK_BYTES  96u

static uint8_t block[BLOCK_BYTES];
static int wrong;

static void expect(const char *what, uint32_t expected, uint32_t found)
{
    if (found != expected) {
        print("limits: %s: expected %u, found %u\n", what, expected, found);
        wrong = 1;
    }
}

/* The kernel with one section, a page that lies at an offset in flash; and a
 * process that has the last whole page of flash, straight from there. */
static void make_block(uint32_t offset)
{
    const uint32_t words[BLOCK_BYTES / 4] = {
        1, BLOCK_BYTES, 2, 32, 2, 64, 0, 96,
        SECTION, 0, 1, 0,
        USER_SECTION, 1, 1, 1,
        SECTION, RIGPOLLEN_PAGE_BYTES, offset, EXECUTABLE,
        USER_SECTION, RIGPOLLEN_PAGE_BYTES, LAST_WHOLE, EXECUTABLE,
    };

    for (uint32_t i = 0; i < BLOCK_BYTES / 4; i++)
        put_word(block + 4 * i, words[i]);
}

static uint8_t flash_byte(uint32_t offset)
{
    return (uint8_t)(offset * 0x9E3779B1u >> 24);
}

/* A page has the bytes of flash from an offset on. */
static void check_page(const char *what, const uint8_t *page, uint32_t offset)
{
    uint32_t same = 0;

    while (same < RIGPOLLEN_PAGE_BYTES
           && page[same] == flash_byte(offset + same))
        same++;
    expect(what, RIGPOLLEN_PAGE_BYTES, same);
}

static uint32_t load(uint32_t offset)
{
    make_block(offset);
    return rigpollen_load(block, BLOCK_BYTES, FLASH, FLASH_LENGTH, FLASH_START,
                          RAM, RAM_LENGTH, RAM_START);
}

static uint32_t check(uint64_t ram_length, uint32_t flash_start)
{
    return rigpollen_check(block, BLOCK_BYTES, FLASH, FLASH_LENGTH, flash_start,
                           ram_length, RAM_START, WORDS,
                           RIGPOLLEN_ANSWER_WORDS);
}

static uint32_t process(uint64_t ram_length)
{
    return rigpollen_process(block, BLOCK_BYTES, FLASH, FLASH_LENGTH,
                             FLASH_START, ram_length, RAM_START, 2, WORDS,
                             RIGPOLLEN_LIST_WORDS);
}

/* The page of process 2, whose satp WORDS has. */
static uint32_t page(uint32_t flash_length)
{
    const uint32_t root = WORDS[RIGPOLLEN_LIST_SATP] & RIGPOLLEN_SATP_ROOT;

    return (uint32_t)rigpollen_page(RAM, RAM_LENGTH, RAM_START, FLASH,
                                    flash_length, FLASH_START, root,
                                    USER_SECTION, BYTES,
                                    RIGPOLLEN_PAGE_BYTES);
}

int main(void)
{
    const uint32_t last = FLASH_LENGTH - RIGPOLLEN_PAGE_BYTES;

    for (uint32_t i = FLASH_LENGTH - FLASH_MEMORY; i < FLASH_LENGTH; i++)
        FLASH[i] = flash_byte(i);
    expect("one byte past flash", RIGPOLLEN_SECTION_PAST_FLASH, load(last + 1));
    expect("the last page of flash", RIGPOLLEN_LOADED, load(last));
    check_page("bytes from the end of flash",
               RAM + SECTION_PAGE * RIGPOLLEN_PAGE_BYTES, last);
    expect("RAM", RIGPOLLEN_LOADED, check(RAM_LENGTH, FLASH_START));
    expect("RAM + 2^32", RIGPOLLEN_RAM_UNFIT,
           check(UPPER_HALF + RAM_LENGTH, FLASH_START));
    expect("flash past 2^32", RIGPOLLEN_FLASH_UNFIT,
           check(RAM_LENGTH, FLASH_START + RIGPOLLEN_PAGE_BYTES));
    expect("flash over RAM", RIGPOLLEN_FLASH_UNFIT,
           check(RAM_LENGTH, RAM_START));
    expect("process, RAM", RIGPOLLEN_LOADED, process(RAM_LENGTH));
    expect("the page's length", RIGPOLLEN_PAGE_BYTES, page(FLASH_LENGTH));
    check_page("bytes of the page", BYTES, LAST_WHOLE);
    expect("the length of a page in which flash ends", 0,
           page(LAST_WHOLE + RIGPOLLEN_PAGE_BYTES - 1));
    expect("process, RAM + 2^32", RIGPOLLEN_RAM_UNFIT,
           process(UPPER_HALF + RAM_LENGTH));
    if (!wrong)
        print("limits: flash of 2^31 - 1 bytes, and lengths past 2^32, as "
              "expected\n");
    return wrong;
}
