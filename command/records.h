/*
 * The words of a boot block, read for people: any bytes have an answer, and a
 * word that is not wholly in the block reads as 0.
 */
#ifndef RECORDS_H
#define RECORDS_H

#include "files.h"

struct process {
    uint32_t entry_point, first_section, sections, kind_word;
};

struct section {
    uint32_t address, size, flash_offset, flags;
};

struct region {
    uint32_t start, pages;
};

/* The word at a byte offset. */
uint32_t word_at(const struct bytes *block, uint64_t offset);

/* The header's counts, and where they put the records. */
uint32_t process_count(const struct bytes *block);
uint32_t section_count(const struct bytes *block);
uint32_t region_count(const struct bytes *block);
uint64_t sections_at(const struct bytes *block);
uint64_t regions_at(const struct bytes *block);
uint64_t tight_length(const struct bytes *block);

/* Records, counted from 0. */
struct process process_record(const struct bytes *block, uint32_t i);
struct section section_record(const struct bytes *block, uint32_t n);
struct region region_record(const struct bytes *block, uint32_t i);

/* Which process has section record n, from 1 on; 0 if none has. */
uint32_t owner_of(const struct bytes *block, uint32_t n);

/* The address after the section's last byte, and the pages that hold a byte
 * of it: virtual page numbers. */
uint64_t section_end(const struct section *section);
uint32_t first_page(const struct section *section);
uint32_t last_page(const struct section *section);

/* The I/O pages of the first regions. */
uint64_t io_pages(const struct bytes *block, uint32_t regions);

/* How many pages the stack of a user process has. */
uint32_t stack_pages(const struct process *process);

#endif
