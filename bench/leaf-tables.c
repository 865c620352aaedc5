/*
 * leaf-tables TURNS LIMIT: the time that bench_table_count takes for each of
 * four user processes, the median of TURNS batches of calls. In each turn
 * there is one batch for each process. Ends with 1 where the count for 2,304
 * pages takes over LIMIT times as long as the one for one page, and with 2
 * where a count is wrong.
 */
#define _POSIX_C_SOURCE 200809L
#include "block.h"

#include <stdio.h>
#include <stdlib.h>
#include <time.h>

/* The one entry of the crate leaf_table_count. */
uint32_t bench_table_count(const uint8_t *block, uint64_t block_length, uint32_t process);

#define USER      2u /* the process counted; 1 is the kernel */
#define TURNS_MAX 10000
#define CASES     4

/* A process has its root table, a leaf table for its stack, and one for each
 * root slot that has a page of its sections. A batch has `calls` calls. */
static const struct {
    const char *name;
    struct run sections;
    uint32_t tables;
    int calls;
} cases[CASES] = {
    { "1 section of 1 page", { 1, SLOT, 0, PAGE, EXECUTABLE }, 3, 1000 },
    { "1 section of 2,304 pages", { 1, SLOT, 0, 2304 * PAGE, EXECUTABLE }, 5, 1000 },
    { "60 sections in 60 root slots", { 60, SLOT, SLOT, PAGE, EXECUTABLE }, 62, 50 },
    { "60 sections in 1 root slot", { 60, SLOT, PAGE, PAGE, EXECUTABLE }, 3, 500 },
};

static struct block blocks[CASES];
static double times[CASES][TURNS_MAX]; /* of one call, in nanoseconds */

static void make_case(int i)
{
    const struct board board = { .groups = {
        { 1, { 0xFFC00000u, { { 1, 0xFFC00000u, 0, PAGE, EXECUTABLE } } } },
        { 1, { cases[i].sections.address, { cases[i].sections } } },
    } };

    make_block(&blocks[i], &board);
}

static double nanoseconds(void)
{
    struct timespec now;

    clock_gettime(CLOCK_MONOTONIC, &now);
    return 1e9 * (double)now.tv_sec + (double)now.tv_nsec;
}

/* The time of one call. */
static double batch(int i)
{
    const double before = nanoseconds();

    for (int n = 0; n < cases[i].calls; n++) {
        const uint32_t tables = bench_table_count(blocks[i].bytes, blocks[i].length, USER);

        if (tables != cases[i].tables) {
            fprintf(stderr, "leaf-tables: %s: %u tables counted, not %u\n",
                    cases[i].name, tables, cases[i].tables);
            exit(2);
        }
    }
    return (nanoseconds() - before) / cases[i].calls;
}

static int compare(const void *a, const void *b)
{
    const double x = *(const double *)a, y = *(const double *)b;

    return (x > y) - (x < y);
}

static double median(double *values, int count)
{
    qsort(values, (size_t)count, sizeof *values, compare);
    return values[count / 2];
}

static void measure(int turns)
{
    for (int n = 0; n < CASES * turns; n++)
        times[n % CASES][n / CASES] = batch(n % CASES);
}

/* Prints the table, and returns the ratio of the second process to the first. */
static double tell(int turns)
{
    double medians[CASES];

    printf("%-30s %6s %9s\n", "process", "tables", "ns");
    for (int i = 0; i < CASES; i++) {
        medians[i] = median(times[i], turns);
        printf("%-30s %6u %9.1f\n", cases[i].name, cases[i].tables, medians[i]);
    }
    return medians[1] / medians[0];
}

int main(int argc, char **argv)
{
    const int turns = argc == 3 ? atoi(argv[1]) : 0;
    double ratio;

    if (turns < 1 || turns > TURNS_MAX)
        return 2;
    for (int i = 0; i < CASES; i++)
        make_case(i);
    measure(turns);
    ratio = tell(turns);
    printf("leaf-tables: ratio %.2f (limit %s)\n", ratio, argv[2]);
    return ratio > atof(argv[2]);
}
