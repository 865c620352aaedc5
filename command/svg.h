/*
 * The picture of a loaded board.
 */
#ifndef SVG_H
#define SVG_H

#include <stdio.h>

#include "uses.h"

/* RAM as a grid of pages coloured by owner, beside it the address space of
 * each process, and a legend. Whether all could be written is left to ferror. */
void draw_svg(FILE *out, const struct board *board, const struct uses *uses);

#endif
