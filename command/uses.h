/*
 * What each page of RAM is used for after a load, as the page tracker and the
 * page tables say; and which sections are used in place, in flash.
 */
#ifndef USES_H
#define USES_H

#include "board.h"

enum use {
    USE_FREE,
    USE_TOP,     /* one of the top four pages: the loader's stack and guard */
    USE_SECTION,
    USE_TRACKER, /* page tracker */
    USE_LIST,    /* process list */
    USE_COPY,    /* copy of the boot block */
    USE_ROOT,    /* root table of `process` */
    USE_LEAF,    /* leaf table of `process`, for the 4 MiB from `address` on */
    USES
};

struct page_use {
    enum use use;
    uint32_t owner;   /* as the tracker has it: 0 is free */
    uint32_t process; /* whose section or table it is, else 0 */
    uint32_t section; /* the section record, of USE_SECTION */
    uint32_t address; /* the virtual address of the page, where it has one */
    uint32_t rights;  /* there; 0 where it has none */
};

/* A section that is used in place; all else is by its record. */
struct flash_use {
    uint32_t section, process, pages, rights;
};

struct uses {
    struct page_use pages[RIGPOLLEN_RAM_PAGES_MAX]; /* by RAM page */
    uint32_t page_count;
    struct flash_use flash[RIGPOLLEN_SECTIONS_MAX];
    uint32_t flash_count;
};

/* The uses of a board that is loaded. */
void find_uses(struct uses *uses, const struct board *board);

/* A use in words, as `section record 2`, `leaf table of process 2`. */
#define USE_TEXT_BYTES 40
void use_text(char text[USE_TEXT_BYTES], const struct page_use *use);

#endif
