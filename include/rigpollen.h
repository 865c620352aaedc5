/*
 * Rigpollen: the boot loader's entries for C and C++.
 *
 * The loader reads a boot block, checks it, copies the sections of every
 * process from flash into RAM, or maps them where they are in flash, and
 * builds the Sv32 page tables, the page tracker and the process list in RAM.
 * It either does all of this or refuses, gives a number, and leaves RAM as it
 * came. The reader walks page tables by the Sv32 rules. The writer makes a
 * boot block from lists of records.
 *
 * Link with librigpollen.a for your machine: x86-64 (level v2 on), or bare
 * RV32 (ilp32, rv32imac or rv32ima). The linker must supply memcpy, memmove
 * and memset as C has them, and nothing else. The entries keep no state
 * between calls and take nothing from a heap. They answer for every input:
 * there is none that they must not be given, if the areas are as said here.
 *
 * Areas. Each area is a pointer and a length. The length of `block`, `flash`,
 * `ram`, `buffer` and `bytes` counts bytes, that of `answer`, `words`, `page`,
 * `processes`, `sections` and `regions` counts 32-bit words. Lengths have 64
 * bits on both machines: a declaration with size_t would be wrong on RV32.
 *   - An area with `const` is only read. It may share bytes with another area
 *     with `const`.
 *   - An area without `const` must not share a byte with any other area of
 *     the same call. (One exception: an `answer` on a stack in the top four
 *     pages of RAM, see rigpollen_load.)
 *   - A length of 0 is allowed. The pointer must still not be null, and must
 *     be aligned for what it points to; any valid pointer will do.
 *   - So RAM or flash that starts at address 0 cannot be lent from C: its
 *     pointer would be null.
 *   - On RV32 an area has less than 2^31 bytes, and does not hold the last
 *     byte of the address space, 0xFFFFFFFF.
 *   - Words in `block`, `ram` and `buffer` are little-endian bytes and need no
 *     alignment.
 *
 * Addresses. `ram` is where the caller reaches RAM, `ram_start` is RAM's
 * physical address as it goes into the tables; so are `flash` and
 * `flash_start` for flash. On the chip, before paging is on, the pointer and
 * the start are the same number.
 */
#ifndef RIGPOLLEN_H
#define RIGPOLLEN_H

#include <stdint.h>

#ifdef __cplusplus
extern "C" {
#endif

/*
 * The version. The first number changes where a program that uses this header
 * may have to change; the second is the last request of document 02 that is
 * built in.
 */
#define RIGPOLLEN_VERSION_MAJOR 1
#define RIGPOLLEN_VERSION_MINOR 7
#define RIGPOLLEN_VERSION_PATCH 0
#define RIGPOLLEN_VERSION "1.7.0"

#define RIGPOLLEN_PAGE_BYTES 4096u

/*
 * The most stack that a call takes on RV32, in bytes below the caller's stack
 * pointer, without what memcpy, memmove and memset take for themselves. An
 * interrupt on the same stack comes on top. (tools/rv32-stack prints this
 * figure, and what each entry takes.)
 */
#define RIGPOLLEN_RV32_STACK_BYTES 5392u

/* -------------------------------------------------------- the boot block */

/* Where the header's words are, in bytes. The header is at the block's start,
 * records lie tight after it: processes, sections, regions. */
#define RIGPOLLEN_HEADER_FORMAT         0 /* RIGPOLLEN_FORMAT              */
#define RIGPOLLEN_HEADER_LENGTH         4 /* bytes of the block            */
#define RIGPOLLEN_HEADER_PROCESSES      8 /* how many process records      */
#define RIGPOLLEN_HEADER_PROCESSES_AT  12 /* offset of the process records */
#define RIGPOLLEN_HEADER_SECTIONS      16
#define RIGPOLLEN_HEADER_SECTIONS_AT   20
#define RIGPOLLEN_HEADER_REGIONS       24
#define RIGPOLLEN_HEADER_REGIONS_AT    28
#define RIGPOLLEN_HEADER_BYTES         32u

#define RIGPOLLEN_FORMAT                1u

/* Where the words of a process record are, in bytes. Record i is process
 * i + 1; process 1 is the kernel. */
#define RIGPOLLEN_PROCESS_ENTRY_POINT   0
#define RIGPOLLEN_PROCESS_FIRST_SECTION 4
#define RIGPOLLEN_PROCESS_SECTIONS      8 /* how many section records     */
#define RIGPOLLEN_PROCESS_KIND_WORD    12 /* see "Kind and stack" below   */
#define RIGPOLLEN_PROCESS_BYTES        16u

/* ... of a section record. */
#define RIGPOLLEN_SECTION_ADDRESS       0 /* virtual address              */
#define RIGPOLLEN_SECTION_SIZE          4 /* in bytes                     */
#define RIGPOLLEN_SECTION_FLASH_OFFSET  8 /* from the image's start       */
#define RIGPOLLEN_SECTION_FLAGS        12
#define RIGPOLLEN_SECTION_BYTES        16u

/* ... of a region record. */
#define RIGPOLLEN_REGION_START          0 /* physical address             */
#define RIGPOLLEN_REGION_PAGES          4
#define RIGPOLLEN_REGION_BYTES          8u

/* Flags of a section. Writable and executable exclude each other. */
#define RIGPOLLEN_NOCOPY     1u /* only zeros: nothing in flash, offset 0 */
#define RIGPOLLEN_WRITABLE   2u
#define RIGPOLLEN_EXECUTABLE 4u

/* The kind word of a user process; the kernel's is 0. */
#define RIGPOLLEN_KIND_MASK   0x000000FFu /* the kind                       */
#define RIGPOLLEN_KIND_COPIED          0u /* every section takes RAM        */
#define RIGPOLLEN_KIND_XIP             1u /* in place in flash if it can be */
#define RIGPOLLEN_STACK_MASK  0x0000FF00u /* its stack's pages, 0: default  */
#define RIGPOLLEN_STACK_SHIFT 8
#define RIGPOLLEN_STACK_PAGES_DEFAULT 16u

/* How many pages a user process's stack has, by its kind word. */
#define RIGPOLLEN_STACK_PAGES(kind_word)                                  \
    (((kind_word) & RIGPOLLEN_STACK_MASK) == 0                            \
         ? RIGPOLLEN_STACK_PAGES_DEFAULT                                  \
         : ((kind_word) & RIGPOLLEN_STACK_MASK) >> RIGPOLLEN_STACK_SHIFT)

/* The most of each. There is at least one process and one section. */
#define RIGPOLLEN_PROCESSES_MAX   16u
#define RIGPOLLEN_SECTIONS_MAX    64u
#define RIGPOLLEN_REGIONS_MAX     32u
#define RIGPOLLEN_RAM_PAGES_MAX 4096u
#define RIGPOLLEN_IO_PAGES_MAX  4096u /* of all regions together */

/* Where a user process's stack ends: its stack pointer at the start. */
#define RIGPOLLEN_STACK_POINTER 0x80000000u

/* Where sections may lie: first and last address. A user process's range
 * ends just below its stack. */
#define RIGPOLLEN_KERNEL_FIRST  0xFFC00000u
#define RIGPOLLEN_KERNEL_LAST   0xFFEFFFFFu
#define RIGPOLLEN_USER_FIRST    0x00001000u
#define RIGPOLLEN_USER_LAST(kind_word)                                    \
    (RIGPOLLEN_STACK_POINTER                                              \
     - RIGPOLLEN_STACK_PAGES(kind_word) * RIGPOLLEN_PAGE_BYTES - 1u)

/* ------------------------------------------------------------ the loader */

/*
 * Refusals, as the loader's entries return them. "Place" is the second
 * word of the answer; it counts records from 0. The sixth is the record's
 * byte offset in the block, 0 where the place is always 0: with p processes
 * and s sections, process record i is at 32 + 16 i, section record n at
 * 32 + 16 p + 16 n, region record i at 32 + 16 p + 16 s + 8 i. The first in
 * the order of this table wins, with 7, 8 and 9 tried together for one
 * section before the next.
 *
 *  No.  Given exactly when                                           Place
 *   0   (no refusal: the board is loaded)                            0
 *   1   RAM is not whole pages or over 4,096 pages, its start is     0
 *       not a multiple of 4,096, or its end passes 2^32
 *  13   flash's start is not a multiple of 4,096, its end passes     0
 *       2^32, or it shares an address with RAM (with an empty image
 *       or empty RAM there is none to share)
 *   2   the block is under 32 bytes                                  0
 *   3   the format is not 1                                          0
 *   4   the process count is not 1 to 16, the section count is       0
 *       not 1 to 64, or the region count is over 32
 *   5   an offset is not the tight one, or the length field or the   0
 *       block's true length is not the tight length
 *   6   a user process's kind (bits 0 to 7 of its kind word) is      process
 *       over 1 or a bit above 15 is set in that word, the kernel's   record
 *       kind word is not 0, a process's section count is 0, its
 *       first section is not the sum of the counts before it, its
 *       sum passes the section count, or the last sum is not the
 *       section count (then the last record)
 *   7   a section's size is 0, a flag above 4 is set, writable and   section
 *       executable are both set, or NOCOPY has a flash offset        record
 *       other than 0
 *   8   a section is not wholly in its owner's range (the kernel's:  section
 *       0xFFC00000 to 0xFFEFFFFF; a user process's: from 0x00001000  record
 *       to the last byte below its stack), or its first page is not
 *       above the last page of the same process's previous section
 *   9   a section without NOCOPY runs past the end of flash          section
 *                                                                    record
 *  10   an entry point is not in an executable section of its        process
 *       process                                                      record
 *  11   a region's start is not a multiple of 4,096, its pages are   region
 *       0, it ends past 2^32, starts below the end of the region     record
 *       before, shares an address with RAM or with flash, or brings
 *       the I/O total over 4,096
 *  12   the pages needed exceed the pages of RAM                     0
 */
#define RIGPOLLEN_LOADED                 0u
#define RIGPOLLEN_RAM_UNFIT              1u
#define RIGPOLLEN_BLOCK_TOO_SHORT        2u
#define RIGPOLLEN_FORMAT_UNKNOWN         3u
#define RIGPOLLEN_COUNTS_OUT_OF_BOUNDS   4u
#define RIGPOLLEN_LAYOUT_NOT_TIGHT       5u
#define RIGPOLLEN_PROCESS_UNFIT          6u
#define RIGPOLLEN_SECTION_UNFIT          7u
#define RIGPOLLEN_SECTION_MISPLACED      8u
#define RIGPOLLEN_SECTION_PAST_FLASH     9u
#define RIGPOLLEN_ENTRY_POINT_OUTSIDE   10u
#define RIGPOLLEN_REGION_UNFIT          11u
#define RIGPOLLEN_RAM_TOO_SMALL         12u
#define RIGPOLLEN_FLASH_UNFIT           13u

/* Where the words of an answer lie. */
#define RIGPOLLEN_ANSWER_NUMBER  0 /* 0, or the refusal's number             */
#define RIGPOLLEN_ANSWER_PLACE   1 /* the refused record, counted from 0     */
#define RIGPOLLEN_ANSWER_TAKEN   2 /* pages of RAM taken, with its top four */
#define RIGPOLLEN_ANSWER_FREE    3 /* pages of RAM not taken, from page 0 up */
#define RIGPOLLEN_ANSWER_TRACKER 4 /* pages that the page tracker takes      */
#define RIGPOLLEN_ANSWER_OFFSET  5 /* where the refused record is, in bytes  */
#define RIGPOLLEN_ANSWER_WORDS   6

/*
 * Load a board.
 *
 *   block      the boot block, exactly its length: bytes after the last
 *              record are refused (5)
 *   flash      the flash image; section records hold offsets into it
 *   flash_start
 *              flash's physical address, a multiple of 4,096
 *   ram        the whole of RAM, at most 4,096 pages. The top four pages
 *              are lost to all (stack and guard of the ROM itself) and keep
 *              their bytes; the rest is taken from the top down.
 *   ram_start  RAM's physical address, a multiple of 4,096
 *
 * Returns 0, or the number of the refusal.
 *
 * Kind and stack. A process record's last word is its kind word. The
 * kernel's is 0. In a user process's, bits 0 to 7 are the kind, 0 or 1, and
 * bits 8 to 15 say how many pages its stack has: 1 to 255, or 0 for sixteen.
 * A stack of n pages lies from 0x80000000 - 4,096 n to 0x7FFFFFFF. The load
 * reserves these pages and gives them no RAM; sections lie below them.
 *
 * Straight from flash. In a user process of kind 1, a section with neither
 * NOCOPY nor writable takes no RAM, and its table entries name pages of flash,
 * if its flash offset and its address agree modulo 4,096, all flash pages that
 * hold a byte of it lie wholly in the image, and all other bytes of those
 * pages are 0, those of another section too. Otherwise it is copied. Two
 * processes may be given the same page of flash; neither can write it.
 *
 * What is left in RAM: after 0, every taken page holds what the rules put
 * there and zero elsewhere, and pages not taken keep their bytes. After a
 * refusal, RAM is byte for byte as it came, so another block can be tried
 * on it.
 *
 * The caller's own stack. It may lie in the top four pages of RAM while all
 * of RAM is lent: the load neither reads nor writes those pages. What the
 * caller's stack changes there is its own doing. For the same reason an
 * `answer` that stands on that stack is the one area that may share bytes
 * with `ram`.
 *
 * Not noticed. A block or a flash image that lies in RAM pages which the load
 * takes is overwritten while it is read; nothing can tell.
 */
uint32_t rigpollen_load(const uint8_t *block, uint64_t block_length,
                        const uint8_t *flash, uint64_t flash_length,
                        uint32_t flash_start,
                        uint8_t *ram, uint64_t ram_length,
                        uint32_t ram_start);

/*
 * The same load, with the whole answer.
 *
 *   answer  gets number, place, pages taken, pages free, tracker pages and
 *           offset, as many as fit; words after the sixth stay as they are.
 *           On success number, place and offset are 0, on a refusal the
 *           three counts are 0.
 *
 * Returns the number too.
 */
uint32_t rigpollen_answer(const uint8_t *block, uint64_t block_length,
                          const uint8_t *flash, uint64_t flash_length,
                          uint32_t flash_start,
                          uint8_t *ram, uint64_t ram_length,
                          uint32_t ram_start,
                          uint32_t *answer, uint64_t answer_length);

/*
 * The answer that the load would give, with no RAM lent: it depends on RAM's
 * length and start alone.
 *
 *   ram_length  bytes of RAM
 *   ram_start   RAM's physical address
 *   answer      as for rigpollen_answer
 *
 * Returns the number too.
 */
uint32_t rigpollen_check(const uint8_t *block, uint64_t block_length,
                         const uint8_t *flash, uint64_t flash_length,
                         uint32_t flash_start,
                         uint64_t ram_length, uint32_t ram_start,
                         uint32_t *answer, uint64_t answer_length);

/* What rigpollen_process returns where the block has no such process. */
#define RIGPOLLEN_NO_PROCESS 31u

/* Where the words of a process lie, here and in the process list. */
#define RIGPOLLEN_LIST_SATP  0 /* 2^31 + 2^22 * process + root's page number */
#define RIGPOLLEN_LIST_ENTRY 1 /* entry point                                */
#define RIGPOLLEN_LIST_STACK 2 /* stack pointer: 0x80000000, 0 for process 1 */
#define RIGPOLLEN_LIST_WORDS 3

/* The root table's page number in a satp word. */
#define RIGPOLLEN_SATP_ROOT 0x003FFFFFu

/*
 * What a process starts with, where the block boots on RAM of this length and
 * start: what the process list holds after the load, found without RAM.
 *
 *   process  the process's number, from 1 on; 1 is the kernel
 *   words    gets satp, entry point and stack pointer, as many as fit; words
 *            after the third stay as they are, and so does all of it where
 *            the number is not 0
 *
 * Returns 0; else the number of the refusal, or RIGPOLLEN_NO_PROCESS where
 * the block boots and has no such process.
 */
uint32_t rigpollen_process(const uint8_t *block, uint64_t block_length,
                           const uint8_t *flash, uint64_t flash_length,
                           uint32_t flash_start,
                           uint64_t ram_length, uint32_t ram_start,
                           uint32_t process,
                           uint32_t *words, uint64_t words_length);

/* ------------------------------------------------------------ the reader */

/* What rigpollen_walk returns. */
#define RIGPOLLEN_WALK_ABSENT   0u
#define RIGPOLLEN_WALK_RESERVED 1u /* a stack page to come: no RAM yet */
#define RIGPOLLEN_WALK_PAGE     2u

/* Where the words about a page lie. */
#define RIGPOLLEN_WALK_RIGHTS 0
#define RIGPOLLEN_WALK_NUMBER 1
#define RIGPOLLEN_WALK_WORDS  2

/* Bits of the rights. These are neither a table entry's nor a section's. */
#define RIGPOLLEN_READ    1u
#define RIGPOLLEN_WRITE   2u
#define RIGPOLLEN_EXECUTE 4u
#define RIGPOLLEN_USER    8u

/*
 * Walk the tables from a root table, as the MMU does.
 *
 *   ram, ram_start  the RAM that holds the tables. Any length and any start
 *                   will do here; a table that is not wholly inside RAM
 *                   reads as absent.
 *   root            physical page number of the root table (address / 4,096:
 *                   the low 22 bits of satp)
 *   address         the virtual address
 *   page            for a page, gets its rights and the physical page number
 *                   of the 4,096 bytes that hold the address, as many as
 *                   fit; words after the second stay as they are, and so
 *                   does all of it when there is no page. The physical page
 *                   can lie outside RAM.
 *
 * Returns RIGPOLLEN_WALK_ABSENT, RIGPOLLEN_WALK_RESERVED or
 * RIGPOLLEN_WALK_PAGE.
 */
uint32_t rigpollen_walk(const uint8_t *ram, uint64_t ram_length,
                        uint32_t ram_start,
                        uint32_t root, uint32_t address,
                        uint32_t *page, uint64_t page_length);

/*
 * The bytes of the page at an address.
 *
 *   ram, ram_start      as for rigpollen_walk: tables are looked for in RAM
 *                       alone
 *   flash, flash_start  any area too; it may have addresses of RAM
 *   root, address       as for rigpollen_walk
 *   bytes               gets the page's 4,096 bytes, as many as fit; bytes
 *                       after them stay as they are, and so does all of it
 *                       where the length is 0. They are RAM's if the page is
 *                       wholly in RAM, else flash's if it is wholly in flash.
 *
 * Returns 4,096, where fewer fit too; else 0: there is no page, or it lies
 * wholly in neither.
 */
uint64_t rigpollen_page(const uint8_t *ram, uint64_t ram_length,
                        uint32_t ram_start,
                        const uint8_t *flash, uint64_t flash_length,
                        uint32_t flash_start,
                        uint32_t root, uint32_t address,
                        uint8_t *bytes, uint64_t bytes_length);

/* ------------------------------------------------------------ the writer */

/*
 * Refusals of the writer, in the order in which they are tried. None of them
 * changes the buffer.
 *
 *  No.  Given exactly when                                           Place
 *   0   (no refusal: the block is written)                           0
 *  21   a list is not whole records, or there are not 1 to 16        0
 *       processes, 1 to 64 sections and at most 32 regions
 *  22   the buffer is under the length of the block                  0
 *   6   as the loader's 6, of the block to be written; its section   process
 *       count is that of the section list                            record
 */
#define RIGPOLLEN_LISTS_UNFIT      21u
#define RIGPOLLEN_BUFFER_TOO_SHORT 22u

/* How many words a record has. */
#define RIGPOLLEN_PROCESS_RECORD_WORDS 4 /* entry point, first section,
                                            section count, kind word     */
#define RIGPOLLEN_SECTION_RECORD_WORDS 4 /* address, size, flash offset,
                                            flags                        */
#define RIGPOLLEN_REGION_RECORD_WORDS  2 /* start, pages                 */

/* Where the words of the writer's answer lie. */
#define RIGPOLLEN_WRITTEN_NUMBER 0 /* 0, or the refusal's number              */
#define RIGPOLLEN_WRITTEN_PLACE  1 /* the refused record, counted from 0      */
#define RIGPOLLEN_WRITTEN_LENGTH 2 /* bytes of the block; 0 in a refusal      */
#define RIGPOLLEN_WRITTEN_OFFSET 3 /* where the refused record is, in bytes   */
#define RIGPOLLEN_WRITTEN_WORDS  4

/* The bytes of the longest block: no buffer need be longer. */
#define RIGPOLLEN_BLOCK_BYTES_MAX 1568u

/*
 * Write a boot block from lists of records.
 *
 *   processes, sections, regions
 *           the records' words, one record after the other. They are taken
 *           as they are: the first section of a process is not computed, and
 *           what the loader refuses with 7 to 11 is not refused here.
 *   buffer  gets the block at its start: 32 bytes, 16 for each process and
 *           each section, 8 for each region. Bytes beyond the block stay as
 *           they were, and in a refusal all bytes.
 *   answer  gets number, place, length and offset, as many as fit; words
 *           after the fourth stay as they are. On success number, place and
 *           offset are 0, in a refusal the length is 0. The offset is that in
 *           the block that would be written.
 *
 * The block draws none of 2 to 6, and has just these records. The records of
 * a block that draws none of 2 to 6 give the same bytes again.
 *
 * Returns the number too.
 */
uint32_t rigpollen_write_block(const uint32_t *processes,
                               uint64_t process_words,
                               const uint32_t *sections,
                               uint64_t section_words,
                               const uint32_t *regions,
                               uint64_t region_words,
                               uint8_t *buffer, uint64_t buffer_length,
                               uint32_t *answer, uint64_t answer_length);

/* ----------------------------------- what a loaded board has, and where */

/* Virtual addresses that every process has in common (no user right). */
#define RIGPOLLEN_BLOCK_COPY_ADDRESS   0xFFF00000u /* read        */
#define RIGPOLLEN_TRACKER_ADDRESS      0xFFF40000u /* read, write */
#define RIGPOLLEN_PROCESS_LIST_ADDRESS 0xFFF80000u /* read        */

/*
 * Page table entries. A page's entry carries accessed, and dirty too if it can
 * be written; so no first use of a page faults on a chip that does not set
 * these bits itself, and a kernel that looks for used or changed pages clears
 * them first. A pointer's entry has its valid bit alone. The entries of all
 * pages of a user process's stack, as many as its kind word says, are 22, which
 * is not valid: there the kernel has to put a page.
 *
 * Bits 10 to 31 of an entry are the page number of the page or table.
 *
 * The tracker has one byte for each RAM page, rising, then one for each I/O
 * page of the regions in record order: 0 is free, else the number of the
 * process that owns the page. Pages of sections belong to their process, all
 * other taken pages to process 1. Pages of flash have no byte.
 *
 * The process list has three words for each process, from process 1 on, as
 * rigpollen_process gives them.
 */
#define RIGPOLLEN_ENTRY_VALID      0x001u
#define RIGPOLLEN_ENTRY_READ       0x002u /* none of read, write, execute: */
#define RIGPOLLEN_ENTRY_WRITE      0x004u /* a pointer to a leaf table     */
#define RIGPOLLEN_ENTRY_EXECUTE    0x008u
#define RIGPOLLEN_ENTRY_USER       0x010u
#define RIGPOLLEN_ENTRY_ACCESSED   0x040u
#define RIGPOLLEN_ENTRY_DIRTY      0x080u
#define RIGPOLLEN_ENTRY_RESERVED       22u /* a page of a stack, whole value */
#define RIGPOLLEN_ENTRY_PAGE_SHIFT     10
#define RIGPOLLEN_TABLE_ENTRIES      1024u

#ifdef __cplusplus
}
#endif

#endif
