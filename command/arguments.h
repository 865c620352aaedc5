/*
 * The command's arguments.
 */
#ifndef ARGUMENTS_H
#define ARGUMENTS_H

#include "board.h"

/* Exit statuses. */
#define STATUS_BOOTS   0
#define STATUS_REFUSED 1
#define STATUS_ERROR   2 /* usage or files */

/* What the options say; null where one is not given. */
struct options {
    const char *ram, *flash_start, *svg;
    int all, help;
};

#define OPERANDS_MAX 4

struct arguments {
    const struct command *command;
    struct options options;
    const char *operands[OPERANDS_MAX];
};

/* Which options a command takes beside --help. */
#define TAKES_BOARD 1u /* --ram and --flash-start */
#define TAKES_MAP   2u /* --all and --svg */

struct command {
    const char *name, *usage, *summary, *help;
    const char *operands[OPERANDS_MAX]; /* their names; null after the last */
    unsigned takes;
    int (*run)(const struct arguments *arguments);
};

/* The arguments after the command's name. Where they are not as its usage
 * says, one line on standard error says so, and the answer is 0. */
int read_arguments(struct arguments *into, const struct command *command,
                   int count, char **words);

/* The number that a text spells: decimal, or hexadecimal after 0x, and below
 * 2^32. Else one line on standard error names `what`, and the answer is 0. */
int read_number(uint32_t *number, const struct arguments *arguments,
                const char *what, const char *text);

/* The board that the operands BLOCK and FLASH and the options give, read. */
int read_board(struct board *board, const struct arguments *arguments);

void free_board(struct board *board);

#endif
