/*
 * Why a load is refused, in words.
 */
#ifndef EXPLAIN_H
#define EXPLAIN_H

#include "board.h"

#define CAUSE_BYTES 400

/* The cause of the refusal in the board's answer, in one line without its end:
 * the record, its own values, and the limit that they broke; of several causes
 * the first in the order of the header's table. The library has decided that
 * and which record is refused; this finds which of the number's causes holds,
 * and answers 0, with an empty line, should there be none. */
int explain(char line[CAUSE_BYTES], const struct board *board);

#endif
