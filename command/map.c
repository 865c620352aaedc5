#include "commands.h"

#include <errno.h>
#include <inttypes.h>
#include <stdio.h>
#include <string.h>

#include "svg.h"
#include "words.h"

/* Pages from `first` down to `last`, alike but for their addresses. */
struct run {
    uint32_t first, last;
};

/* How much further the virtual address is on the next page of such a use. */
static uint32_t step_of(enum use use)
{
    switch (use) {
    case USE_SECTION:
    case USE_TRACKER:
        return RIGPOLLEN_PAGE_BYTES;
    case USE_LEAF:
        return RIGPOLLEN_TABLE_ENTRIES * RIGPOLLEN_PAGE_BYTES;
    default:
        return 0;
    }
}

/* Whether a page can be joined to the page above it. */
static int joins(const struct page_use *above, const struct page_use *page)
{
    return above->use == page->use && above->owner == page->owner
           && above->process == page->process && above->section == page->section
           && above->rights == page->rights
           && above->address + step_of(page->use) == page->address;
}

static struct run run_from(const struct uses *uses, uint32_t first, int all)
{
    struct run run = { first, first };

    while (!all && run.last > 0
           && joins(&uses->pages[run.last], &uses->pages[run.last - 1]))
        run.last--;
    return run;
}

/* The columns. The last, the use, is as wide as its text. */
#define COLUMNS "%-10s  %-21s  %-7s  %-21s  %-6s  %s\n"
#define PAIR_BYTES 32
#define RUN_BYTES  (USE_TEXT_BYTES + PAIR_BYTES)

/* A number, or the first and the last of several. */
static void numbers_text(char text[PAIR_BYTES], uint32_t first, uint32_t last)
{
    if (first == last)
        snprintf(text, PAIR_BYTES, "%" PRIu32, first);
    else
        snprintf(text, PAIR_BYTES, "%" PRIu32 "-%" PRIu32, first, last);
}

static void addresses_text(char text[PAIR_BYTES], uint32_t first, uint32_t last)
{
    if (first == last)
        snprintf(text, PAIR_BYTES, "0x%08" PRIX32, first);
    else
        snprintf(text, PAIR_BYTES, "0x%08" PRIX32 "-0x%08" PRIX32, first, last);
}

/* Pages of RAM or of flash, as a line has them. */
struct line {
    uint32_t page[2], physical[2], address[2]; /* of the first and the last page */
    uint32_t process, rights; /* 0 if none; without rights there is no address */
    const char *use;
};

static void print_line(const struct line *line)
{
    char page[PAIR_BYTES], physical[PAIR_BYTES], process[PAIR_BYTES] = "-";
    char address[PAIR_BYTES] = "-", rights[RIGHTS_TEXT_BYTES] = "-";

    numbers_text(page, line->page[0], line->page[1]);
    addresses_text(physical, line->physical[0], line->physical[1]);
    if (line->process != 0)
        numbers_text(process, line->process, line->process);
    if (line->rights != 0) {
        addresses_text(address, line->address[0], line->address[1]);
        rights_text(rights, line->rights);
    }
    printf(COLUMNS, page, physical, process, address, rights, line->use);
}

/* The use of a run; of leaf tables, with the addresses that they map. */
static void run_text(char text[RUN_BYTES], const struct page_use *first,
                     const struct page_use *last)
{
    size_t length;

    use_text(text, first);
    length = strlen(text);
    if (first->use == USE_LEAF) {
        snprintf(text + length, RUN_BYTES - length, ", for 0x%08" PRIX32 " to 0x%08" PRIX32,
                 first->address, last->address + step_of(USE_LEAF) - 1);
    }
}

static void print_run(const struct board *board, const struct uses *uses,
                      const struct run *run)
{
    const struct page_use *first = &uses->pages[run->first], *last = &uses->pages[run->last];
    char use[RUN_BYTES];
    const struct line line = {
        { run->first, run->last },
        { board->ram_start + run->first * RIGPOLLEN_PAGE_BYTES,
          board->ram_start + run->last * RIGPOLLEN_PAGE_BYTES },
        { first->address, last->address },
        first->owner, first->rights, use,
    };

    run_text(use, first, last);
    print_line(&line);
}

static void print_ram(const struct board *board, const struct uses *uses, int all)
{
    printf(COLUMNS, "RAM page", "physical address", "owner", "virtual address", "rights", "use");
    for (uint32_t left = uses->page_count; left > 0;) {
        const struct run run = run_from(uses, left - 1, all);

        print_run(board, uses, &run);
        left = run.last;
    }
}

/* Pages `from` to `to` of a section that is used in place. */
static void print_in_place(const struct board *board, const struct flash_use *in_place,
                           uint32_t from, uint32_t to)
{
    const struct section section = section_record(&board->block, in_place->section);
    const uint32_t address[] = { (first_page(&section) + from) * RIGPOLLEN_PAGE_BYTES,
                                 (first_page(&section) + to) * RIGPOLLEN_PAGE_BYTES };
    const uint32_t page[] = { seen_at(board, in_place->process, address[0]).page,
                              seen_at(board, in_place->process, address[1]).page };
    const uint32_t flash = board->flash_start / RIGPOLLEN_PAGE_BYTES;
    char use[USE_TEXT_BYTES];
    const struct line line = {
        { page[0] - flash, page[1] - flash },
        { page[0] * RIGPOLLEN_PAGE_BYTES, page[1] * RIGPOLLEN_PAGE_BYTES },
        { address[0], address[1] },
        in_place->process, in_place->rights, use,
    };

    snprintf(use, sizeof use, "section record %" PRIu32, in_place->section);
    print_line(&line);
}

static void print_section_in_place(const struct board *board, const struct flash_use *in_place,
                                   int all)
{
    const uint32_t step = all ? 1 : in_place->pages;

    for (uint32_t from = 0; from < in_place->pages; from += step)
        print_in_place(board, in_place, from, from + step - 1);
}

static void print_flash(const struct board *board, const struct uses *uses, int all)
{
    if (uses->flash_count == 0)
        return;
    printf("\n" COLUMNS, "flash page", "physical address", "process", "virtual address", "rights",
           "use");
    for (uint32_t i = 0; i < uses->flash_count; i++)
        print_section_in_place(board, &uses->flash[i], all);
}

/* The picture into a file, or to standard output for `-`. */
static int write_svg(const char *name, const struct board *board,
                     const struct uses *uses)
{
    FILE *file = strcmp(name, "-") == 0 ? stdout : fopen(name, "wb");
    int written;

    if (file == NULL)
        return file_error(name, strerror(errno));
    draw_svg(file, board, uses);
    if (file == stdout)
        return 1;
    written = !ferror(file);
    return (fclose(file) == 0 && written) || file_error(name, strerror(errno));
}

int run_map(const struct arguments *arguments)
{
    static struct uses uses;
    const struct options *options = &arguments->options;
    struct board board;
    int status = boot_board(&board, arguments);

    if (status == STATUS_BOOTS) {
        find_uses(&uses, &board);
        if (options->svg != NULL) {
            status = write_svg(options->svg, &board, &uses) ? status : STATUS_ERROR;
        } else {
            print_ram(&board, &uses, options->all);
            print_flash(&board, &uses, options->all);
        }
    }
    free_board(&board);
    return status;
}
