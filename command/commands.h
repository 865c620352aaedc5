/*
 * The commands. Each answers the exit status.
 */
#ifndef COMMANDS_H
#define COMMANDS_H

#include "arguments.h"

int run_check(const struct arguments *arguments);
int run_map(const struct arguments *arguments);
int run_walk(const struct arguments *arguments);
int run_dump(const struct arguments *arguments);

/* The refusal in the board's answer: the line that `listing` prints, and the
 * cause, each with a text before it. */
void print_refusal(const struct board *board, const char *before);

/* The board that the arguments give, loaded: STATUS_BOOTS. Else what is wrong
 * is printed, and the answer is STATUS_REFUSED or STATUS_ERROR. The board is
 * to be freed in each case. */
int boot_board(struct board *board, const struct arguments *arguments);

#endif
