/*
 * image BOARD RAM EXPECTED [ADDRESS BITS]
 *
 * Loads a board with the library and writes two files: RAM, the memory of the
 * machine that is to be started, with the loaded board and the stub's orders
 * in it, and flash where the machine has memory for it; EXPECTED, what 01's
 * rules give every process at every virtual page. BOARD is `small`, `flash`,
 * `stack` or a seed. With ADDRESS and BITS, these bits are then flipped in RAM:
 * in the entry of process 2 for the page at this virtual address.
 */
#include <stdio.h>
#include <stdlib.h>
#include <string.h>

#include "board.h"
#include "expected.h"
#include "plan.h"
#include "rigpollen.h"

static void fail(const char *what)
{
    fprintf(stderr, "image: %s\n", what);
    exit(2);
}

static void write_all(FILE *file, const void *bytes, size_t length)
{
    if (fwrite(bytes, 1, length, file) != length)
        fail("a file could not be written");
}

static FILE *create(const char *name)
{
    FILE *file = fopen(name, "wb");

    if (!file)
        fail("a file could not be made");
    return file;
}

static void finish(FILE *file)
{
    if (fclose(file) != 0)
        fail("a file could not be written");
}

/* -------------------------------------------------------------- the load */

/* RAM holds random bytes before, so that a byte left over would be seen. */
static uint8_t *load(const struct board *board, const struct plan *plan)
{
    const size_t length = (size_t)board->pages * PAGE_BYTES;
    uint8_t *ram = malloc(length);
    uint8_t block[MAX_BLOCK];
    const size_t block_length = write_block(board, block);
    uint32_t answer[RIGPOLLEN_ANSWER_WORDS];

    if (!ram)
        fail("no memory");
    fill_random(ram, length, 2);
    if (rigpollen_answer(block, block_length, board->flash, board->flash_length,
                         board->flash_start, ram, length, IMAGE, answer,
                         RIGPOLLEN_ANSWER_WORDS)) {
        fprintf(stderr, "image: refused %u at %u, byte %u\n",
                answer[RIGPOLLEN_ANSWER_NUMBER], answer[RIGPOLLEN_ANSWER_PLACE],
                answer[RIGPOLLEN_ANSWER_OFFSET]);
        exit(2);
    }
    if (answer[RIGPOLLEN_ANSWER_TAKEN] != plan->taken
        || answer[RIGPOLLEN_ANSWER_FREE] != board->pages - plan->taken
        || answer[RIGPOLLEN_ANSWER_TRACKER] != plan->tracker_pages)
        fail("the answer's counts are not those of the order of pages");
    if (answer[RIGPOLLEN_ANSWER_PLACE] || answer[RIGPOLLEN_ANSWER_OFFSET])
        fail("place or offset of a success is not 0");
    return ram;
}

static void damage(const struct board *board, const struct plan *plan,
                   uint8_t *ram, const char *address, const char *bits)
{
    const uint32_t page = (uint32_t)strtoul(address, NULL, 0) / PAGE_BYTES;
    const uint32_t flipped = (uint32_t)strtoul(bits, NULL, 0);
    const uint32_t leaf = board->processes > 1 ? plan->leaf[1][page / 1024]
                          : NO_PAGE;
    uint8_t *entry;

    if (leaf == NO_PAGE)
        fail("there is no such entry to damage");
    entry = ram + (size_t)leaf * PAGE_BYTES + 4 * (page % 1024);
    for (int i = 0; i < 4; i++)
        entry[i] ^= (uint8_t)(flipped >> 8 * i);
}

/* ------------------------------------------------------------- the files */

static void put_at(FILE *file, uint32_t address, const void *bytes,
                   size_t length)
{
    if (fseek(file, (long)(address - RAM_BASE), SEEK_SET) != 0)
        fail("a file could not be written");
    write_all(file, bytes, length);
}

/* Flash to the end of its last page; the small board's is not in the machine's
 * memory. */
static void write_flash(FILE *file, const struct board *board)
{
    static uint8_t bytes[MAX_FLASH];
    const uint32_t pages = (board->flash_length + PAGE_BYTES - 1) / PAGE_BYTES;

    if (board->flash_start < FLASH)
        return;
    for (uint32_t i = 0; i < pages * PAGE_BYTES; i++)
        bytes[i] = machine_flash(board, i);
    put_at(file, board->flash_start, bytes, pages * PAGE_BYTES);
}

static void write_ram(const char *name, const struct board *board,
                      const struct plan *plan, const uint8_t *ram)
{
    FILE *file = create(name);
    struct orders orders = { board->processes, { 0 } };

    for (uint32_t q = 0; q < board->processes; q++)
        orders.satp[q] = satp_word(plan, q);
    put_at(file, ORDERS, &orders, sizeof orders);
    put_at(file, IMAGE, ram, (size_t)board->pages * PAGE_BYTES);
    write_flash(file, board);
    put_at(file, RAM_BASE + RAM_BYTES - 1, "", 1);
    finish(file);
}

static void write_tables(FILE *file, const struct board *board,
                         const struct plan *plan)
{
    uint8_t table[MAX_PAGES] = { NO_TABLE };

    for (uint32_t q = 0; q < board->processes; q++) {
        table[plan->root[q]] = ROOT_TABLE;
        for (uint32_t i = 0; i < BLOCKS; i++)
            if (plan->leaf[q][i] != NO_PAGE)
                table[plan->leaf[q][i]] = LEAF_TABLE;
    }
    write_all(file, table, board->pages);
}

static void write_process(FILE *file, const struct board *board,
                          const struct plan *plan, uint32_t process)
{
    static uint8_t rights[VIRTUAL_PAGES];
    uint8_t bytes[PAGE_BYTES];

    for (uint32_t page = 0; page < VIRTUAL_PAGES; page++)
        rights[page] = (uint8_t)seen(board, plan, process, page, bytes);
    write_all(file, rights, sizeof rights);
    for (uint32_t page = 0; page < VIRTUAL_PAGES; page++)
        if (rights[page] & SEEN_PAGE) {
            seen(board, plan, process, page, bytes);
            write_all(file, bytes, sizeof bytes);
        }
}

static void write_expected(const char *name, const struct board *board,
                           const struct plan *plan, const uint8_t *ram)
{
    FILE *file = create(name);
    const struct expected head = { board->pages, board->processes };

    write_all(file, &head, sizeof head);
    write_tables(file, board, plan);
    write_all(file, ram, (size_t)board->pages * PAGE_BYTES);
    for (uint32_t q = 0; q < board->processes; q++)
        write_process(file, board, plan, q);
    finish(file);
}

int main(int argc, char **argv)
{
    static struct board board;
    static struct plan plan;
    uint8_t *ram;

    if (argc != 4 && argc != 6)
        fail("usage: image BOARD RAM EXPECTED [ADDRESS BITS]");
    if (strcmp(argv[1], "small") == 0)
        small_board(&board);
    else if (strcmp(argv[1], "flash") == 0)
        flash_board(&board);
    else if (strcmp(argv[1], "stack") == 0)
        stack_board(&board);
    else
        generated_board(&board, strtoull(argv[1], NULL, 0));
    make_plan(&board, &plan);
    ram = load(&board, &plan);
    if (argc == 6)
        damage(&board, &plan, ram, argv[4], argv[5]);
    write_ram(argv[2], &board, &plan, ram);
    write_expected(argv[3], &board, &plan, ram);
    free(ram);
    return 0;
}
