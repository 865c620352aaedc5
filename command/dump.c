#include "commands.h"

#include <inttypes.h>
#include <stdio.h>
#include <string.h>

#include "words.h"

#define KNOWN_FLAGS (RIGPOLLEN_NOCOPY | RIGPOLLEN_WRITABLE | RIGPOLLEN_EXECUTABLE)

static void print_sections(const struct process *process)
{
    if (process->sections == 0)
        printf("no section");
    else if (process->sections == 1)
        printf("section record %" PRIu32, process->first_section);
    else
        printf("section records %" PRIu32 " to %" PRIu64, process->first_section,
               (uint64_t)process->first_section + process->sections - 1);
}

static void dump_process(const struct bytes *block, uint32_t i)
{
    const struct process process = process_record(block, i);

    printf("process,0x%08" PRIX32 ",%" PRIu32 ",%" PRIu32 ",0x%04" PRIX32 "  # process %" PRIu32,
           process.entry_point, process.first_section, process.sections,
           process.kind_word, i + 1);
    printf("%s: ", i == 0 ? ", the kernel" : "");
    print_sections(&process);
    if ((process.kind_word & RIGPOLLEN_KIND_MASK) == RIGPOLLEN_KIND_XIP)
        printf(", in place in flash where they can be");
    if (i != 0)
        printf("; stack of %" PRIu32 " page%s", stack_pages(&process),
               plural(stack_pages(&process)));
    puts("");
}

static void dump_section(const struct bytes *block, uint32_t n)
{
    const struct section section = section_record(block, n);
    const uint32_t flags = section.flags;

    printf("section,0x%08" PRIX32 ",%" PRIu32 ",%" PRIu32 ",", section.address, section.size,
           section.flash_offset);
    printf(flags <= KNOWN_FLAGS ? "%" PRIu32 : "0x%08" PRIX32, flags);
    printf("  # section record %" PRIu32, n);
    if (owner_of(block, n) != 0)
        printf(", process %" PRIu32 ": ", owner_of(block, n));
    else
        printf(", no process: ");
    if (section.size == 0)
        printf("empty");
    else
        printf("up to 0x%08" PRIX64, section_end(&section) - 1);
    printf("%s%s%s%s\n", flags & RIGPOLLEN_WRITABLE ? ", writable" : "",
           flags & RIGPOLLEN_EXECUTABLE ? ", executable" : "",
           flags & RIGPOLLEN_NOCOPY ? ", zeros (NOCOPY)" : "",
           flags > KNOWN_FLAGS ? ", unknown flags" : "");
}

static void dump_region(const struct bytes *block, uint32_t i)
{
    const struct region region = region_record(block, i);

    printf("region,0x%08" PRIX32 ",%" PRIu32 "  # region record %" PRIu32 ": ", region.start,
           region.pages, i);
    if (region.pages == 0)
        puts("empty");
    else
        printf("up to 0x%08" PRIX64 "\n",
               region.start + (uint64_t)region.pages * RIGPOLLEN_PAGE_BYTES - 1);
}

static void dump_processes(const struct bytes *block)
{
    puts("# process,ENTRY POINT,FIRST SECTION,SECTION COUNT,KIND WORD");
    for (uint32_t i = 0; i < process_count(block); i++)
        dump_process(block, i);
}

static void dump_sections(const struct bytes *block)
{
    puts("# section,ADDRESS,SIZE,FLASH OFFSET,FLAGS");
    for (uint32_t n = 0; n < section_count(block); n++)
        dump_section(block, n);
}

static void dump_regions(const struct bytes *block)
{
    puts("# region,START,PAGES");
    for (uint32_t i = 0; i < region_count(block); i++)
        dump_region(block, i);
}

static void dump_records(const struct bytes *block)
{
    printf("# %" PRIu64 " bytes: %" PRIu32 " process%s, %" PRIu32 " section%s, %" PRIu32
           " region%s\n",
           block->length, process_count(block), process_count(block) == 1 ? "" : "es",
           section_count(block), plural(section_count(block)), region_count(block),
           plural(region_count(block)));
    dump_processes(block);
    dump_sections(block);
    dump_regions(block);
}

/* The records, if the counts put them where they are; and 6, which the writer
 * would draw too, as a comment. Empty RAM and flash draw nothing before 2 to 6;
 * whether 7 to 13 are drawn is not told here. */
static int dump(struct board *board)
{
    const uint32_t number = check_board(board);

    if (number >= RIGPOLLEN_BLOCK_TOO_SHORT && number <= RIGPOLLEN_LAYOUT_NOT_TIGHT) {
        print_refusal(board, "");
        return STATUS_REFUSED;
    }
    dump_records(&board->block);
    if (number != RIGPOLLEN_PROCESS_UNFIT)
        return STATUS_BOOTS;
    print_refusal(board, "# ");
    return STATUS_REFUSED;
}

int run_dump(const struct arguments *arguments)
{
    struct board board;
    int status = STATUS_ERROR;

    memset(&board, 0, sizeof board);
    board.flash.bytes = take_memory(0);
    if (board.flash.bytes != NULL && read_file(&board.block, arguments->operands[0]))
        status = dump(&board);
    free_board(&board);
    return status;
}
