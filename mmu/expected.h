/*
 * The file of what is expected, between image.c and compare.c:
 *
 *   struct expected
 *   `pages` bytes, one for each RAM page: NO_TABLE, ROOT_TABLE or LEAF_TABLE
 *   RAM as it is before the machine runs, 4,096 bytes for each page
 *   for each process: a byte for each virtual page (SEEN_ values of plan.h),
 *   then the 4,096 bytes of each that has SEEN_PAGE, rising
 */
#ifndef EXPECTED_H
#define EXPECTED_H

#include <stdint.h>

#define VIRTUAL_PAGES 0x100000u

#define NO_TABLE      0
#define ROOT_TABLE    1
#define LEAF_TABLE    2

struct expected {
    uint32_t pages, processes;
};

#endif
