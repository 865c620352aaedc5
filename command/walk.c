#include "commands.h"

#include <inttypes.h>
#include <stdio.h>

/* The section of a process, or of the kernel, one of whose pages holds an
 * address; -1 if there is none. */
static int section_at(const struct bytes *block, uint32_t process, uint32_t address)
{
    const uint32_t page = address / RIGPOLLEN_PAGE_BYTES;

    for (uint32_t n = 0; n < section_count(block); n++) {
        const struct section section = section_record(block, n);
        const uint32_t owner = owner_of(block, n);

        if ((owner == process || owner == 1) && first_page(&section) <= page
            && page <= last_page(&section))
            return (int)n;
    }
    return -1;
}

static void print_section(const struct bytes *block, uint32_t n, uint32_t address)
{
    const struct section section = section_record(block, n);

    if (address >= section.address && address < section_end(&section))
        printf("holds     section record %" PRIu32 " (process %" PRIu32 "), byte %" PRIu32
               " of %" PRIu32 "\n",
               n, owner_of(block, n), address - section.address, section.size);
    else
        printf("holds     zero beside section record %" PRIu32 " (process %" PRIu32
               "), 0x%08" PRIX32 " to 0x%08" PRIX64 "\n",
               n, owner_of(block, n), section.address, section_end(&section) - 1);
}

/* What a page holds that no section has: the kernel's own mapping. */
static void print_kernel_page(const struct board *board, uint32_t address)
{
    const struct {
        const char *what;
        uint32_t start;
        uint64_t bytes;
    } parts[] = {
        { "process list", RIGPOLLEN_PROCESS_LIST_ADDRESS,
          (uint64_t)4 * RIGPOLLEN_LIST_WORDS * process_count(&board->block) },
        { "page tracker", RIGPOLLEN_TRACKER_ADDRESS,
          board->ram_pages + io_pages(&board->block, region_count(&board->block)) },
        { "copy of the block", RIGPOLLEN_BLOCK_COPY_ADDRESS, board->block.length },
    };
    const size_t i = address >= parts[0].start ? 0 : address >= parts[1].start ? 1 : 2;
    const uint32_t byte = address - parts[i].start;

    if (byte < parts[i].bytes)
        printf("holds     %s, byte %" PRIu32 " of %" PRIu64 "\n", parts[i].what, byte,
               parts[i].bytes);
    else
        printf("holds     zero after the %s of %" PRIu64 " bytes\n", parts[i].what,
               parts[i].bytes);
}

static void print_rights(uint32_t rights)
{
    printf("rights   %s%s%s%s\n", rights & RIGPOLLEN_READ ? " read" : "",
           rights & RIGPOLLEN_WRITE ? " write" : "",
           rights & RIGPOLLEN_EXECUTE ? " execute" : "",
           rights & RIGPOLLEN_USER ? " user" : ", for the kernel alone");
}

static void print_page(const struct board *board, uint32_t process, uint32_t address,
                       const struct seen *seen)
{
    const int section = section_at(&board->block, process, address);
    const uint32_t flash_page = seen->page - board->flash_start / RIGPOLLEN_PAGE_BYTES;
    uint32_t ram_page;

    puts("page");
    print_rights(seen->rights);
    printf("physical  0x%08" PRIX32 ", page 0x%" PRIX32 ", ",
           seen->page * RIGPOLLEN_PAGE_BYTES + address % RIGPOLLEN_PAGE_BYTES, seen->page);
    if (in_ram(board, seen->page, &ram_page))
        printf("RAM page %" PRIu32 "\n", ram_page);
    else
        printf("flash page %" PRIu32 "\n", flash_page);
    printf("byte      0x%02X\n", (unsigned)byte_at(board, process, address));
    if (section >= 0)
        print_section(&board->block, (uint32_t)section, address);
    else
        print_kernel_page(board, address);
}

static void print_seen(const struct board *board, uint32_t process, uint32_t address)
{
    const struct seen seen = seen_at(board, process, address);
    const uint32_t stack = reserved_pages(board, process);
    const uint32_t from = RIGPOLLEN_STACK_POINTER - stack * RIGPOLLEN_PAGE_BYTES;

    printf("process %" PRIu32 " at 0x%08" PRIX32 ": ", process, address);
    if (seen.walk == RIGPOLLEN_WALK_PAGE)
        print_page(board, process, address, &seen);
    else if (seen.walk == RIGPOLLEN_WALK_RESERVED)
        printf("reserved, page %" PRIu32 " of the %" PRIu32 " of its stack from 0x%08" PRIX32 "\n",
               (address - from) / RIGPOLLEN_PAGE_BYTES + 1, stack, from);
    else
        puts("absent");
}

int run_walk(const struct arguments *arguments)
{
    uint32_t process, address;
    struct board board;
    int status;

    if (!read_number(&process, arguments, "PROCESS", arguments->operands[2])
        || !read_number(&address, arguments, "ADDRESS", arguments->operands[3]))
        return STATUS_ERROR;
    status = boot_board(&board, arguments);
    if (status == STATUS_BOOTS && (process < 1 || process > process_count(&board.block))) {
        fprintf(stderr, "rigpollen walk: PROCESS: the block has processes 1 to %" PRIu32
                        ", not %" PRIu32 "\n", process_count(&board.block), process);
        status = STATUS_ERROR;
    }
    if (status == STATUS_BOOTS)
        print_seen(&board, process, address);
    free_board(&board);
    return status;
}
