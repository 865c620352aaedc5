#include "records.h"

#include "rigpollen.h"

uint32_t word_at(const struct bytes *block, uint64_t offset)
{
    const uint8_t *at;

    if (block->length < 4 || offset > block->length - 4)
        return 0;
    at = block->bytes + offset;
    return at[0] | (uint32_t)at[1] << 8 | (uint32_t)at[2] << 16
           | (uint32_t)at[3] << 24;
}

uint32_t process_count(const struct bytes *block)
{
    return word_at(block, RIGPOLLEN_HEADER_PROCESSES);
}

uint32_t section_count(const struct bytes *block)
{
    return word_at(block, RIGPOLLEN_HEADER_SECTIONS);
}

uint32_t region_count(const struct bytes *block)
{
    return word_at(block, RIGPOLLEN_HEADER_REGIONS);
}

uint64_t sections_at(const struct bytes *block)
{
    return RIGPOLLEN_HEADER_BYTES
           + (uint64_t)RIGPOLLEN_PROCESS_BYTES * process_count(block);
}

uint64_t regions_at(const struct bytes *block)
{
    return sections_at(block)
           + (uint64_t)RIGPOLLEN_SECTION_BYTES * section_count(block);
}

uint64_t tight_length(const struct bytes *block)
{
    return regions_at(block)
           + (uint64_t)RIGPOLLEN_REGION_BYTES * region_count(block);
}

struct process process_record(const struct bytes *block, uint32_t i)
{
    const uint64_t at = RIGPOLLEN_HEADER_BYTES
                        + (uint64_t)RIGPOLLEN_PROCESS_BYTES * i;
    const struct process record = {
        word_at(block, at + RIGPOLLEN_PROCESS_ENTRY_POINT),
        word_at(block, at + RIGPOLLEN_PROCESS_FIRST_SECTION),
        word_at(block, at + RIGPOLLEN_PROCESS_SECTIONS),
        word_at(block, at + RIGPOLLEN_PROCESS_KIND_WORD),
    };

    return record;
}

struct section section_record(const struct bytes *block, uint32_t n)
{
    const uint64_t at = sections_at(block)
                        + (uint64_t)RIGPOLLEN_SECTION_BYTES * n;
    const struct section record = {
        word_at(block, at + RIGPOLLEN_SECTION_ADDRESS),
        word_at(block, at + RIGPOLLEN_SECTION_SIZE),
        word_at(block, at + RIGPOLLEN_SECTION_FLASH_OFFSET),
        word_at(block, at + RIGPOLLEN_SECTION_FLAGS),
    };

    return record;
}

struct region region_record(const struct bytes *block, uint32_t i)
{
    const uint64_t at = regions_at(block)
                        + (uint64_t)RIGPOLLEN_REGION_BYTES * i;
    const struct region record = {
        word_at(block, at + RIGPOLLEN_REGION_START),
        word_at(block, at + RIGPOLLEN_REGION_PAGES),
    };

    return record;
}

uint32_t owner_of(const struct bytes *block, uint32_t n)
{
    const uint32_t processes = process_count(block);

    for (uint32_t i = 0; i < processes && i < RIGPOLLEN_PROCESSES_MAX; i++) {
        const struct process record = process_record(block, i);

        if (n >= record.first_section
            && n - record.first_section < record.sections)
            return i + 1;
    }
    return 0;
}

uint64_t section_end(const struct section *section)
{
    return (uint64_t)section->address + section->size;
}

uint32_t first_page(const struct section *section)
{
    return section->address / RIGPOLLEN_PAGE_BYTES;
}

uint32_t last_page(const struct section *section)
{
    return (uint32_t)((section_end(section) - 1) / RIGPOLLEN_PAGE_BYTES);
}

uint64_t io_pages(const struct bytes *block, uint32_t regions)
{
    uint64_t sum = 0;

    for (uint32_t i = 0; i < regions; i++)
        sum += region_record(block, i).pages;
    return sum;
}

uint32_t stack_pages(const struct process *process)
{
    return RIGPOLLEN_STACK_PAGES(process->kind_word);
}
