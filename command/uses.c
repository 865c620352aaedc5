#include "uses.h"

#include <stdio.h>
#include <string.h>

#define SLOT_BYTES (RIGPOLLEN_TABLE_ENTRIES * RIGPOLLEN_PAGE_BYTES)

/* The use of a RAM page that has none yet; null if it has one. */
static struct page_use *unused(struct uses *uses, const struct board *board,
                               uint32_t page)
{
    uint32_t ram_page;

    if (!in_ram(board, page, &ram_page)
        || uses->pages[ram_page].use != USE_FREE)
        return NULL;
    return &uses->pages[ram_page];
}

static void find_owners(struct uses *uses, const struct board *board)
{
    uint8_t owners[RIGPOLLEN_PAGE_BYTES];

    read_tracker(owners, board);
    uses->page_count = (uint32_t)board->ram_pages;
    for (uint32_t page = 0; page < uses->page_count; page++)
        uses->pages[page].owner = owners[page];
}

/* The page that is seen at an address gets its use, and the rights there. */
static void set_mapped(struct uses *uses, const struct board *board,
                       const struct page_use *use)
{
    const uint32_t process = use->process != 0 ? use->process : 1;
    const struct seen seen = seen_at(board, process, use->address);
    struct page_use *found = unused(uses, board, seen.page);

    if (seen.walk != RIGPOLLEN_WALK_PAGE || found == NULL)
        return;
    found->use = use->use;
    found->process = use->process;
    found->section = use->section;
    found->address = use->address;
    found->rights = seen.rights;
}

/* All its pages are in RAM, or all are in flash. */
static void find_section(struct uses *uses, const struct board *board,
                         uint32_t n)
{
    const struct section record = section_record(&board->block, n);
    const uint32_t owner = owner_of(&board->block, n);
    const struct seen seen = seen_at(board, owner, record.address);
    struct page_use use = { USE_SECTION, 0, owner, n, 0, 0 };
    uint32_t ram_page;

    if (!in_ram(board, seen.page, &ram_page)) {
        const struct flash_use in_place = {
            n, owner, last_page(&record) - first_page(&record) + 1, seen.rights
        };

        uses->flash[uses->flash_count++] = in_place;
        return;
    }
    for (uint32_t page = first_page(&record); page <= last_page(&record); page++) {
        use.address = page * RIGPOLLEN_PAGE_BYTES;
        set_mapped(uses, board, &use);
    }
}

static void find_sections(struct uses *uses, const struct board *board)
{
    for (uint32_t n = 0; n < section_count(&board->block); n++)
        find_section(uses, board, n);
}

/* The kernel's own mapping: the copy of the block, the tracker, the list. */
static void find_kernel_pages(struct uses *uses, const struct board *board)
{
    struct page_use use = { USE_COPY, 0, 0, 0, RIGPOLLEN_BLOCK_COPY_ADDRESS, 0 };

    set_mapped(uses, board, &use);
    use.use = USE_LIST;
    use.address = RIGPOLLEN_PROCESS_LIST_ADDRESS;
    set_mapped(uses, board, &use);
    use.use = USE_TRACKER;
    for (uint32_t i = 0; i < board->answer[RIGPOLLEN_ANSWER_TRACKER]; i++) {
        use.address = RIGPOLLEN_TRACKER_ADDRESS + i * RIGPOLLEN_PAGE_BYTES;
        set_mapped(uses, board, &use);
    }
}

static void set_table(struct uses *uses, const struct board *board,
                      enum use use, uint32_t process, uint32_t page,
                      uint32_t address)
{
    struct page_use *found = unused(uses, board, page);

    if (found == NULL)
        return;
    found->use = use;
    found->process = process;
    found->address = address;
}

/* A process's root table and the leaf tables that it points to. The kernel's
 * leaf table is every root's, and is the kernel's because that comes first. */
static void find_tables(struct uses *uses, const struct board *board,
                        uint32_t process)
{
    const struct bytes ram = {
        board->ram, board->ram_pages * RIGPOLLEN_PAGE_BYTES
    };
    uint32_t root_page;

    set_table(uses, board, USE_ROOT, process, board->roots[process], 0);
    if (!in_ram(board, board->roots[process], &root_page))
        return;
    for (uint32_t slot = 0; slot < RIGPOLLEN_TABLE_ENTRIES; slot++) {
        const uint32_t entry = word_at(&ram, (uint64_t)root_page * RIGPOLLEN_PAGE_BYTES
                                             + 4 * slot);

        if (entry & RIGPOLLEN_ENTRY_VALID)
            set_table(uses, board, USE_LEAF, process,
                      entry >> RIGPOLLEN_ENTRY_PAGE_SHIFT, slot * SLOT_BYTES);
    }
}

static void find_all_tables(struct uses *uses, const struct board *board)
{
    for (uint32_t process = 1; process <= process_count(&board->block); process++)
        find_tables(uses, board, process);
}

/* A page that is taken and neither mapped nor a table is one of the top. */
static void find_top(struct uses *uses)
{
    for (uint32_t page = 0; page < uses->page_count; page++)
        if (uses->pages[page].use == USE_FREE && uses->pages[page].owner != 0)
            uses->pages[page].use = USE_TOP;
}

void find_uses(struct uses *uses, const struct board *board)
{
    memset(uses, 0, sizeof *uses);
    find_owners(uses, board);
    find_sections(uses, board);
    find_kernel_pages(uses, board);
    find_all_tables(uses, board);
    find_top(uses);
}

void use_text(char text[USE_TEXT_BYTES], const struct page_use *use)
{
    static const char *const words[USES] = {
        "free", "loader's stack and guard", "section record", "page tracker",
        "process list", "copy of the block", "root table of process",
        "leaf table of process",
    };

    if (use->use == USE_SECTION)
        snprintf(text, USE_TEXT_BYTES, "%s %u", words[use->use], use->section);
    else if (use->use == USE_ROOT || use->use == USE_LEAF)
        snprintf(text, USE_TEXT_BYTES, "%s %u", words[use->use], use->process);
    else
        snprintf(text, USE_TEXT_BYTES, "%s", words[use->use]);
}
