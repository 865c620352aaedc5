#include "explain.h"

#include <inttypes.h>
#include <stdarg.h>
#include <stdio.h>
#include <string.h>

#include "words.h"

#define ADDRESSES_END UINT64_C(0x100000000)

/* The line so far. */
struct cause {
    char *line;
    size_t length;
};

static int say(struct cause *cause, const char *format, ...) LIKE_PRINTF(2, 3);

static int say(struct cause *cause, const char *format, ...)
{
    const size_t room = CAUSE_BYTES - cause->length;
    va_list values;
    int count;

    va_start(values, format);
    count = vsnprintf(cause->line + cause->length, room, format, values);
    va_end(values);
    cause->length += count < 0 ? 0 : (size_t)count < room ? (size_t)count : room - 1;
    return 1;
}

/* ---------------------------------------------------------------- areas */

struct area {
    const char *name;
    uint64_t start, length;
};

static struct area ram_area(const struct board *board)
{
    const struct area area = {
        "RAM", board->ram_start, board->ram_pages * RIGPOLLEN_PAGE_BYTES
    };

    return area;
}

static struct area flash_area(const struct board *board)
{
    const struct area area = {
        "flash", board->flash_start, board->flash.length
    };

    return area;
}

static struct area region_area(const struct board *board, uint32_t i)
{
    const struct region region = region_record(&board->block, i);
    const struct area area = {
        "region", region.start, (uint64_t)region.pages * RIGPOLLEN_PAGE_BYTES
    };

    return area;
}

static uint64_t end_of(const struct area *area)
{
    return area->start + area->length;
}

static int starts_off_page(struct cause *cause, const struct area *area)
{
    return area->start % RIGPOLLEN_PAGE_BYTES != 0
           && say(cause, "starts at 0x%08" PRIX64 ", not a multiple of %u",
                  area->start, RIGPOLLEN_PAGE_BYTES);
}

static int ends_past_last(struct cause *cause, const struct area *area)
{
    return end_of(area) > ADDRESSES_END
           && say(cause, "starts at 0x%08" PRIX64 ", its last byte is at 0x%" PRIX64
                         ", past 0x%" PRIX64,
                  area->start, end_of(area) - 1, ADDRESSES_END - 1);
}

static int shares(struct cause *cause, const struct area *area,
                  const struct area *other)
{
    return area->length != 0 && other->length != 0
           && area->start < end_of(other) && other->start < end_of(area)
           && say(cause, "0x%08" PRIX64 " to 0x%08" PRIX64 " shares addresses with %s, "
                         "0x%08" PRIX64 " to 0x%08" PRIX64,
                  area->start, end_of(area) - 1, other->name, other->start,
                  end_of(other) - 1);
}

static int ram_unfit(struct cause *cause, const struct board *board)
{
    const struct area ram = ram_area(board);

    say(cause, "RAM: ");
    if (board->ram_pages > RIGPOLLEN_RAM_PAGES_MAX)
        return say(cause, "%" PRIu64 " pages, %u are the most", board->ram_pages,
                   RIGPOLLEN_RAM_PAGES_MAX);
    return starts_off_page(cause, &ram) || ends_past_last(cause, &ram);
}

static int flash_unfit(struct cause *cause, const struct board *board)
{
    const struct area ram = ram_area(board), flash = flash_area(board);

    say(cause, "flash: ");
    return starts_off_page(cause, &flash) || ends_past_last(cause, &flash)
           || shares(cause, &flash, &ram);
}

/* --------------------------------------------------------------- header */

static int block_too_short(struct cause *cause, const struct board *board)
{
    return say(cause, "block: %" PRIu64 " byte%s, its header alone has %u",
               board->block.length, plural(board->block.length), RIGPOLLEN_HEADER_BYTES);
}

static int format_unknown(struct cause *cause, const struct board *board)
{
    return say(cause, "header: format is 0x%08" PRIX32 ", not %u",
               word_at(&board->block, RIGPOLLEN_HEADER_FORMAT), RIGPOLLEN_FORMAT);
}

static int count_outside(struct cause *cause, const char *name, uint32_t count,
                         uint32_t least, uint32_t most)
{
    return (count < least || count > most)
           && say(cause, "header: %s count is %" PRIu32 ", not %" PRIu32 " to %" PRIu32,
                  name, count, least, most);
}

static int counts_out_of_bounds(struct cause *cause, const struct board *board)
{
    const struct bytes *block = &board->block;

    return count_outside(cause, "process", process_count(block), 1,
                         RIGPOLLEN_PROCESSES_MAX)
           || count_outside(cause, "section", section_count(block), 1,
                            RIGPOLLEN_SECTIONS_MAX)
           || count_outside(cause, "region", region_count(block), 0,
                            RIGPOLLEN_REGIONS_MAX);
}

static int not_tight(struct cause *cause, const char *what, uint64_t found,
                     uint64_t tight)
{
    return found != tight
           && say(cause, "%s is %" PRIu64 ", the counts give %" PRIu64, what, found, tight);
}

static int layout_not_tight(struct cause *cause, const struct board *board)
{
    const struct bytes *block = &board->block;
    const uint64_t length = tight_length(block);

    if (word_at(block, RIGPOLLEN_HEADER_PROCESSES_AT) != RIGPOLLEN_HEADER_BYTES)
        return say(cause, "header: offset of the process records is %" PRIu32 ", not %u",
                   word_at(block, RIGPOLLEN_HEADER_PROCESSES_AT), RIGPOLLEN_HEADER_BYTES);
    return not_tight(cause, "header: offset of the section records",
                     word_at(block, RIGPOLLEN_HEADER_SECTIONS_AT), sections_at(block))
           || not_tight(cause, "header: offset of the region records",
                        word_at(block, RIGPOLLEN_HEADER_REGIONS_AT), regions_at(block))
           || not_tight(cause, "header: length field",
                        word_at(block, RIGPOLLEN_HEADER_LENGTH), length)
           || not_tight(cause, "block: its length in bytes", block->length, length);
}

/* ------------------------------------------------------------ processes */

static void name_process(struct cause *cause, uint32_t i)
{
    say(cause, "process record %" PRIu32 " (process %" PRIu32 "%s): ", i, i + 1,
        i == 0 ? ", the kernel" : "");
}

static int kind_unfit(struct cause *cause, uint32_t i, uint32_t kind_word)
{
    const uint32_t kind = kind_word & RIGPOLLEN_KIND_MASK;

    if (i == 0)
        return kind_word != 0
               && say(cause, "kind word is 0x%08" PRIX32 ", the kernel's is 0", kind_word);
    if (kind > RIGPOLLEN_KIND_XIP)
        return say(cause, "kind is %" PRIu32 " (kind word 0x%08" PRIX32 "), not %u or %u",
                   kind, kind_word, RIGPOLLEN_KIND_COPIED, RIGPOLLEN_KIND_XIP);
    return kind_word > (RIGPOLLEN_KIND_MASK | RIGPOLLEN_STACK_MASK)
           && say(cause, "kind word is 0x%08" PRIX32 ", bits 16 to 31 are not 0", kind_word);
}

static uint64_t sections_before(const struct bytes *block, uint32_t i)
{
    uint64_t sum = 0;

    for (uint32_t j = 0; j < i; j++)
        sum += process_record(block, j).sections;
    return sum;
}

static int process_unfit(struct cause *cause, const struct board *board)
{
    const uint32_t i = board->answer[RIGPOLLEN_ANSWER_PLACE];
    const struct bytes *block = &board->block;
    const struct process process = process_record(block, i);
    const uint64_t before = sections_before(block, i);
    const uint64_t sum = before + process.sections;
    const uint32_t sections = section_count(block);

    name_process(cause, i);
    if (kind_unfit(cause, i, process.kind_word))
        return 1;
    if (process.sections == 0)
        return say(cause, "section count is 0, at least 1 is needed");
    if (process.first_section != before)
        return say(cause, "first section is %" PRIu32 ", the processes before have %" PRIu64
                          " section%s: it must be %" PRIu64,
                   process.first_section, before, plural(before), before);
    if (sum > sections)
        return say(cause, "with its %" PRIu32 " section%s there are %" PRIu64
                          ", the block has %" PRIu32,
                   process.sections, plural(process.sections), sum, sections);
    return i + 1 == process_count(block) && sum != sections
           && say(cause, "it is the last, and all processes together have %" PRIu64
                         " section%s, the block has %" PRIu32, sum, plural(sum), sections);
}

static int has(const struct section *section, uint32_t address)
{
    return section->address <= address && address < section_end(section);
}

/* How far an address is from a section that does not hold it. */
static uint64_t distance(const struct section *section, uint32_t address)
{
    return address < section->address ? section->address - address
                                      : address - section_end(section) + 1;
}

/* The executable section of a process that is nearest to an address, and
 * `holder`, the section that holds it; a number past the last if none. */
static uint32_t nearest_executable(const struct bytes *block,
                                   const struct process *process, uint32_t *holder)
{
    uint64_t least = UINT64_MAX;
    uint32_t nearest = UINT32_MAX;

    *holder = UINT32_MAX;
    for (uint32_t j = 0; j < process->sections; j++) {
        const uint32_t n = process->first_section + j;
        const struct section section = section_record(block, n);

        if (has(&section, process->entry_point)) {
            *holder = n;
        } else if (section.flags & RIGPOLLEN_EXECUTABLE
                   && distance(&section, process->entry_point) < least) {
            least = distance(&section, process->entry_point);
            nearest = n;
        }
    }
    return nearest;
}

static int entry_point_outside(struct cause *cause, const struct board *board)
{
    const uint32_t i = board->answer[RIGPOLLEN_ANSWER_PLACE];
    const struct process process = process_record(&board->block, i);
    uint32_t holder;
    const uint32_t nearest = nearest_executable(&board->block, &process, &holder);
    const struct section section = section_record(&board->block, nearest);

    name_process(cause, i);
    say(cause, "entry point 0x%08" PRIX32 " is in ", process.entry_point);
    if (holder != UINT32_MAX)
        return say(cause, "section record %" PRIu32 ", which is not executable", holder);
    if (nearest == UINT32_MAX)
        return say(cause, "none of its sections, and none of them is executable");
    return say(cause, "none of its sections; the nearest executable one is section record %"
                      PRIu32 ", 0x%08" PRIX32 " to 0x%08" PRIX64,
               nearest, section.address, section_end(&section) - 1);
}

/* ------------------------------------------------------------- sections */

static void name_section(struct cause *cause, const struct board *board,
                         struct section *section)
{
    const uint32_t n = board->answer[RIGPOLLEN_ANSWER_PLACE];

    *section = section_record(&board->block, n);
    say(cause, "section record %" PRIu32 " (process %" PRIu32 "): ", n,
        owner_of(&board->block, n));
}

static int section_unfit(struct cause *cause, const struct board *board)
{
    const uint32_t both = RIGPOLLEN_WRITABLE | RIGPOLLEN_EXECUTABLE;
    struct section section;

    name_section(cause, board, &section);
    if (section.size == 0)
        return say(cause, "size is 0, at least 1 is needed");
    if (section.flags > (RIGPOLLEN_NOCOPY | both))
        return say(cause, "flags are 0x%08" PRIX32 ", over %u: an unknown flag is set",
                   section.flags, RIGPOLLEN_NOCOPY | both);
    if ((section.flags & both) == both)
        return say(cause, "flags are %" PRIu32 ": writable and executable at once",
                   section.flags);
    return section.flags & RIGPOLLEN_NOCOPY && section.flash_offset != 0
           && say(cause, "flags are %" PRIu32 ": NOCOPY, but its flash offset is %" PRIu32
                         ", not 0", section.flags, section.flash_offset);
}

static int ends_past_range(struct cause *cause, const struct board *board,
                           const struct section *section, uint32_t process)
{
    const struct process record = process_record(&board->block, process - 1);
    const uint32_t last = process == 1 ? RIGPOLLEN_KERNEL_LAST
                                       : RIGPOLLEN_USER_LAST(record.kind_word);

    if (section_end(section) <= (uint64_t)last + 1)
        return 0;
    say(cause, "its last byte is at 0x%08" PRIX64 ", ", section_end(section) - 1);
    if (process == 1)
        return say(cause, "the kernel's range ends at 0x%08" PRIX32, last);
    return say(cause, "its process's range ends at 0x%08" PRIX32 ", below a stack of %" PRIu32
                      " page%s", last, stack_pages(&record), plural(stack_pages(&record)));
}

static int section_misplaced(struct cause *cause, const struct board *board)
{
    const uint32_t n = board->answer[RIGPOLLEN_ANSWER_PLACE];
    const uint32_t process = owner_of(&board->block, n);
    const uint32_t first = process == 1 ? RIGPOLLEN_KERNEL_FIRST : RIGPOLLEN_USER_FIRST;
    struct section section, before;

    name_section(cause, board, &section);
    if (section.address < first)
        return say(cause, "starts at 0x%08" PRIX32 ", %s range starts at 0x%08" PRIX32,
                   section.address, process == 1 ? "the kernel's" : "its process's", first);
    if (ends_past_range(cause, board, &section, process))
        return 1;
    if (n == 0 || owner_of(&board->block, n - 1) != process)
        return 0;
    before = section_record(&board->block, n - 1);
    return first_page(&section) <= last_page(&before)
           && say(cause, "starts at page 0x%" PRIX32 ", the section before ends at page 0x%" PRIX32,
                  first_page(&section), last_page(&before));
}

static int section_past_flash(struct cause *cause, const struct board *board)
{
    struct section section;

    name_section(cause, board, &section);
    return say(cause, "%" PRIu32 " byte%s from flash offset %" PRIu32 " on need flash of %" PRIu64
                      " bytes, it has %" PRIu64,
               section.size, plural(section.size), section.flash_offset,
               (uint64_t)section.flash_offset + section.size, board->flash.length);
}

/* -------------------------------------------------------------- regions */

static int below_region_before(struct cause *cause, const struct board *board, uint32_t i)
{
    const struct area region = region_area(board, i);
    const struct area before = region_area(board, i == 0 ? 0 : i - 1);

    return i != 0 && region.start < end_of(&before)
           && say(cause, "starts at 0x%08" PRIX64 ", the region before ends at 0x%08" PRIX64,
                  region.start, end_of(&before) - 1);
}

static int region_unfit(struct cause *cause, const struct board *board)
{
    const uint32_t i = board->answer[RIGPOLLEN_ANSWER_PLACE];
    const struct area region = region_area(board, i);
    const struct area ram = ram_area(board), flash = flash_area(board);
    const uint64_t total = io_pages(&board->block, i + 1);

    say(cause, "region record %" PRIu32 ": ", i);
    if (starts_off_page(cause, &region))
        return 1;
    if (region.length == 0)
        return say(cause, "pages are 0, at least 1 is needed");
    if (ends_past_last(cause, &region) || below_region_before(cause, board, i)
        || shares(cause, &region, &ram) || shares(cause, &region, &flash))
        return 1;
    return total > RIGPOLLEN_IO_PAGES_MAX
           && say(cause, "brings the I/O pages to %" PRIu64 ", %u are the most", total,
                  RIGPOLLEN_IO_PAGES_MAX);
}

/* ------------------------------------------------------------- the room */

static int explain_number(struct cause *cause, const struct board *board);

static int ram_too_small(struct cause *cause, const struct board *board)
{
    const uint32_t pages = smallest_ram(board);
    struct board larger = *board;

    say(cause, "RAM: %" PRIu64 " page%s, ", board->ram_pages, plural(board->ram_pages));
    if (pages == 0)
        return say(cause, "too few, and beside flash and regions there is no room for more");
    if (pages > RIGPOLLEN_RAM_PAGES_MAX)
        return say(cause, "over %u are needed, and no RAM has more", RIGPOLLEN_RAM_PAGES_MAX);
    say(cause, "the smallest RAM on which it boots has %" PRIu32, pages);
    larger.ram_pages = pages;
    if (check_board(&larger) == RIGPOLLEN_LOADED)
        return 1;
    say(cause, "; but from 0x%08" PRIX32 " on that many draw %" PRIu32 ": ", board->ram_start,
        larger.answer[RIGPOLLEN_ANSWER_NUMBER]);
    return explain_number(cause, &larger);
}

static int explain_number(struct cause *cause, const struct board *board)
{
    static int (*const causes[])(struct cause *, const struct board *) = {
        [RIGPOLLEN_RAM_UNFIT] = ram_unfit,
        [RIGPOLLEN_BLOCK_TOO_SHORT] = block_too_short,
        [RIGPOLLEN_FORMAT_UNKNOWN] = format_unknown,
        [RIGPOLLEN_COUNTS_OUT_OF_BOUNDS] = counts_out_of_bounds,
        [RIGPOLLEN_LAYOUT_NOT_TIGHT] = layout_not_tight,
        [RIGPOLLEN_PROCESS_UNFIT] = process_unfit,
        [RIGPOLLEN_SECTION_UNFIT] = section_unfit,
        [RIGPOLLEN_SECTION_MISPLACED] = section_misplaced,
        [RIGPOLLEN_SECTION_PAST_FLASH] = section_past_flash,
        [RIGPOLLEN_ENTRY_POINT_OUTSIDE] = entry_point_outside,
        [RIGPOLLEN_REGION_UNFIT] = region_unfit,
        [RIGPOLLEN_RAM_TOO_SMALL] = ram_too_small,
        [RIGPOLLEN_FLASH_UNFIT] = flash_unfit,
    };
    const uint32_t number = board->answer[RIGPOLLEN_ANSWER_NUMBER];

    return number < sizeof causes / sizeof causes[0] && causes[number] != NULL
           && causes[number](cause, board);
}

int explain(char line[CAUSE_BYTES], const struct board *board)
{
    struct cause cause = { line, 0 };

    line[0] = '\0';
    if (explain_number(&cause, board))
        return 1;
    line[0] = '\0';
    return 0;
}
