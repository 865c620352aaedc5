#include "plan.h"

#include <string.h>

#define BLOCK_COPY_PAGE 0xFFF00u
#define TRACKER_PAGE    0xFFF40u
#define LIST_PAGE       0xFFF80u
#define KERNEL_PAGES    0xFFC00u /* from here on all processes see the same */
#define STACK_BLOCK     511
#define KERNEL_BLOCK    1023

static uint32_t first_page(const struct section *section)
{
    return section->address / PAGE_BYTES;
}

static uint32_t last_page(const struct section *section)
{
    return (section->address + (section->size - 1)) / PAGE_BYTES;
}

static uint32_t page_count(const struct section *section)
{
    return last_page(section) - first_page(section) + 1;
}

/* ---------------------------------------------------------- the kind word */

uint32_t process_kind(const struct process *process)
{
    return process->kind_word & 0xFF;
}

uint32_t stack_pages(const struct process *process)
{
    const uint32_t pages = process->kind_word >> 8 & 0xFF;

    return pages == 0 ? 16 : pages;
}

/* ----------------------------------------------------- straight from flash */

static int all_zero(const struct board *board, uint32_t from, uint32_t end)
{
    while (from < end && board->flash[from] == 0)
        from++;
    return from == end;
}

/* 02, A6: in a user process of kind 1, a section with neither NOCOPY nor
 * writable whose flash offset and address agree modulo 4,096, whose flash
 * pages lie wholly in the image, and beside which they are zero. */
static int straight_from_flash(const struct board *board, uint32_t process,
                               const struct section *section)
{
    const uint32_t offset = section->offset, end = offset + section->size;
    const uint32_t first = offset / PAGE_BYTES * PAGE_BYTES;
    const uint32_t last = (end - 1) / PAGE_BYTES * PAGE_BYTES;

    return process != 0 && process_kind(&board->process[process]) == 1
           && !(section->flags & (NOCOPY | WRITABLE))
           && offset % PAGE_BYTES == section->address % PAGE_BYTES
           && last + PAGE_BYTES <= board->flash_length
           && all_zero(board, first, offset)
           && all_zero(board, end, last + PAGE_BYTES);
}

/* ----------------------------------------------------- the order of pages */

static uint32_t tracker_pages(const struct board *board)
{
    uint32_t tracked = board->pages;

    for (uint32_t i = 0; i < board->regions; i++)
        tracked += board->region[i].pages;
    return (tracked + PAGE_BYTES - 1) / PAGE_BYTES;
}

/* The blocks of a user process that need a leaf table. */
static void used_blocks(const struct board *board, uint32_t process,
                        uint8_t used[BLOCKS])
{
    const struct process *record = &board->process[process];

    memset(used, 0, BLOCKS);
    used[STACK_BLOCK] = 1;
    for (uint32_t i = record->first; i < record->first + record->count; i++)
        for (uint32_t page = first_page(&board->section[i]);
             page <= last_page(&board->section[i]); page++)
            used[page / 1024] = 1;
}

/* Places are counted from the top here (0 is RAM's highest page) and turned
 * round at the end, so that a board of too few pages can be planned too. */
static uint32_t take(uint32_t *next, uint32_t pages)
{
    const uint32_t first = *next;

    *next += pages;
    return first;
}

static void plan_sections(const struct board *board, uint32_t process,
                          struct plan *plan, uint32_t *next)
{
    const struct process *record = &board->process[process];

    for (uint32_t i = record->first; i < record->first + record->count; i++) {
        const struct section *section = &board->section[i];

        plan->section[i] = straight_from_flash(board, process, section)
                           ? NO_PAGE : take(next, page_count(section));
    }
}

static void plan_tables(const struct board *board, uint32_t process,
                        struct plan *plan, uint32_t *next)
{
    uint8_t used[BLOCKS];

    plan->root[process] = take(next, 1);
    if (process == 0) {
        memset(used, 0, sizeof used);
        used[KERNEL_BLOCK] = 1;
    } else
        used_blocks(board, process, used);
    for (uint32_t i = 0; i < BLOCKS; i++)
        plan->leaf[process][i] = used[i] ? take(next, 1) : NO_PAGE;
}

static void plan_from_top(const struct board *board, struct plan *plan)
{
    uint32_t next = 4; /* the four lost pages */

    for (uint32_t q = 1; q < board->processes; q++)
        plan_sections(board, q, plan, &next);
    plan_sections(board, 0, plan, &next);
    plan->tracker_pages = tracker_pages(board);
    plan->tracker = take(&next, plan->tracker_pages);
    plan->list = take(&next, 1);
    plan->block = take(&next, 1);
    for (uint32_t q = 0; q < board->processes; q++)
        plan_tables(board, q, plan, &next);
    plan->taken = next;
}

static void turn_round(uint32_t *page, uint32_t pages)
{
    if (*page != NO_PAGE)
        *page = pages - 1 - *page;
}

void make_plan(const struct board *board, struct plan *plan)
{
    plan_from_top(board, plan);
    for (uint32_t i = 0; i < board->sections; i++)
        turn_round(&plan->section[i], board->pages);
    turn_round(&plan->tracker, board->pages);
    turn_round(&plan->list, board->pages);
    turn_round(&plan->block, board->pages);
    for (uint32_t q = 0; q < board->processes; q++) {
        turn_round(&plan->root[q], board->pages);
        for (uint32_t i = 0; i < BLOCKS; i++)
            turn_round(&plan->leaf[q][i], board->pages);
    }
}

uint32_t pages_needed(const struct board *board)
{
    struct plan plan;

    plan_from_top(board, &plan);
    return plan.taken;
}

uint32_t satp_word(const struct plan *plan, uint32_t process)
{
    return 0x80000000u + ((process + 1) << 22) + IMAGE / PAGE_BYTES
           + plan->root[process];
}

/* ------------------------------------------------------ contents of pages */

/* Byte j of a section stands at its address + j; the rest of its pages is
 * zero. */
static void section_bytes(const struct board *board,
                          const struct section *section, uint32_t page,
                          uint8_t bytes[PAGE_BYTES])
{
    for (uint32_t i = 0; i < PAGE_BYTES; i++) {
        const uint32_t address = page * PAGE_BYTES + i;
        const uint32_t j = address - section->address;
        const int inside = address >= section->address && j < section->size;

        bytes[i] = inside && !(section->flags & NOCOPY)
                   ? board->flash[section->offset + j] : 0;
    }
}

/* A page of flash. */
static void flash_bytes(const struct board *board,
                        const struct section *section, uint32_t page,
                        uint8_t bytes[PAGE_BYTES])
{
    const uint32_t first = section->offset / PAGE_BYTES;
    const uint32_t flash_page = first + (page - first_page(section));

    for (uint32_t i = 0; i < PAGE_BYTES; i++)
        bytes[i] = machine_flash(board, flash_page * PAGE_BYTES + i);
}

/* The owner of a RAM page: 0 for a free one. */
static uint8_t owner(const struct board *board, const struct plan *plan,
                     uint32_t ram_page)
{
    for (uint32_t q = 0; q < board->processes; q++) {
        const struct process *record = &board->process[q];

        for (uint32_t i = record->first; i < record->first + record->count; i++)
            if (plan->section[i] != NO_PAGE && ram_page <= plan->section[i]
                && plan->section[i] - ram_page < page_count(&board->section[i]))
                return (uint8_t)(q + 1);
    }
    return ram_page >= board->pages - plan->taken ? 1 : 0;
}

/* I/O pages come after the RAM pages and are all free. */
static void tracker_bytes(const struct board *board, const struct plan *plan,
                          uint32_t part, uint8_t bytes[PAGE_BYTES])
{
    for (uint32_t i = 0; i < PAGE_BYTES; i++) {
        const uint32_t tracked = part * PAGE_BYTES + i;

        bytes[i] = tracked < board->pages ? owner(board, plan, tracked) : 0;
    }
}

static void put_word(uint8_t *at, uint32_t word)
{
    for (int i = 0; i < 4; i++)
        at[i] = (uint8_t)(word >> 8 * i);
}

static void list_bytes(const struct board *board, const struct plan *plan,
                       uint8_t bytes[PAGE_BYTES])
{
    memset(bytes, 0, PAGE_BYTES);
    for (uint32_t q = 0; q < board->processes; q++) {
        put_word(bytes + 12 * q, satp_word(plan, q));
        put_word(bytes + 12 * q + 4, board->process[q].entry);
        put_word(bytes + 12 * q + 8, q == 0 ? 0 : 0x80000000u);
    }
}

static void block_bytes(const struct board *board, uint8_t bytes[PAGE_BYTES])
{
    memset(bytes, 0, PAGE_BYTES);
    write_block(board, bytes);
}

/* ------------------------------------------------- what a process sees */

static uint32_t section_rights(const struct section *section)
{
    return SEEN_PAGE | SEEN_READ
           | (section->flags & WRITABLE ? SEEN_WRITE : 0)
           | (section->flags & EXECUTABLE ? SEEN_EXECUTE : 0);
}

/* The pages of a process's own sections, without the user right. */
static uint32_t seen_section(const struct board *board, const struct plan *plan,
                             uint32_t process, uint32_t page,
                             uint8_t bytes[PAGE_BYTES])
{
    const struct process *record = &board->process[process];

    for (uint32_t i = record->first; i < record->first + record->count; i++) {
        const struct section *section = &board->section[i];

        if (page < first_page(section) || page > last_page(section))
            continue;
        if (plan->section[i] == NO_PAGE) {
            flash_bytes(board, section, page, bytes);
            return section_rights(section) | SEEN_FLASH;
        }
        section_bytes(board, section, page, bytes);
        return section_rights(section);
    }
    return SEEN_NOTHING;
}

static uint32_t seen_kernel(const struct board *board, const struct plan *plan,
                            uint32_t page, uint8_t bytes[PAGE_BYTES])
{
    if (page == BLOCK_COPY_PAGE) {
        block_bytes(board, bytes);
        return SEEN_PAGE | SEEN_READ;
    }
    if (page >= TRACKER_PAGE && page < TRACKER_PAGE + plan->tracker_pages) {
        tracker_bytes(board, plan, page - TRACKER_PAGE, bytes);
        return SEEN_PAGE | SEEN_READ | SEEN_WRITE;
    }
    if (page == LIST_PAGE) {
        list_bytes(board, plan, bytes);
        return SEEN_PAGE | SEEN_READ;
    }
    return seen_section(board, plan, 0, page, bytes);
}

uint32_t seen(const struct board *board, const struct plan *plan,
              uint32_t process, uint32_t page, uint8_t bytes[PAGE_BYTES])
{
    uint32_t answer;

    if (page >= KERNEL_PAGES)
        return seen_kernel(board, plan, page, bytes);
    if (process == 0)
        return SEEN_NOTHING;
    if (page < STACK_END
        && page >= STACK_END - stack_pages(&board->process[process]))
        return SEEN_RESERVED;
    answer = seen_section(board, plan, process, page, bytes);
    return answer == SEEN_NOTHING ? answer : answer | SEEN_USER;
}
