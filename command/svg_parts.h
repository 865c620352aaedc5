/*
 * What the parts of the picture have in common: how a use of a page looks, and
 * how boxes and text are written. Lengths are in pixels.
 */
#ifndef SVG_PARTS_H
#define SVG_PARTS_H

#include <stdio.h>

#include "uses.h"
#include "words.h"

#define INK   "#1B1F24"
#define PALE  "#5B6472" /* of text that explains */
#define LINE  "#D5DAE1"
#define BAND  "#F1F3F6"

#define DASH "\xE2\x80\x93" /* from one address to another */

#define TEXT_SIZE  11
#define SMALL_SIZE 9

#define CHIP_WIDTH  26
#define CHIP_HEIGHT 16

struct box {
    int x, y, width, height;
};

/* `hatch` is null where there is none. */
struct look {
    const char *fill, *ink, *hatch;
};

struct pen {
    int size;
    const char *fill, *weight, *anchor;
};

struct look look_of(enum use use, uint32_t owner);

/* Every other section of a process is a shade lighter. */
struct look look_of_section(const struct board *board, uint32_t process,
                            uint32_t section);

/* What is not in RAM. */
struct look look_in_place(uint32_t owner);
struct look look_reserved(void);

/* The hatches, once, before all that uses them. */
void define_hatches(FILE *out);

/* A path's outline is not drawn; a chip's is. */
void fill_path(FILE *out, const struct look *look, const char *path);
void draw_chip(FILE *out, const struct look *look, const struct box *box);

/* `x` is the start, the middle or the end, as the pen's anchor says; `y` is
 * the base line. */
void write_text(FILE *out, const struct pen *pen, int x, int y,
                const char *format, ...) LIKE_PRINTF(5, 6);

/* The width of text in the font, or in one that is not wider. */
int text_width(int size, int characters);

/* The base line of text that is centred between two heights. */
int base_line(int size, int top, int height);

/* RAM as a grid of pages; beside it, on the left, are addresses. */
#define GRID_LABELS 78

struct grid_size {
    const struct shape *shape; /* the grid's own */
    int cell_width, cell_height;
    int width, height; /* of all cells */
};

/* Cells are made larger where so much height is free. */
struct grid_size grid_size_of(uint32_t pages, int height);
void draw_grid(FILE *out, int x, int y, const struct grid_size *size,
               const struct board *board, const struct uses *uses);

/* The address spaces, in columns of one width. */
#define PANELS_ROWS_MAX (RIGPOLLEN_SECTIONS_MAX + 2 * RIGPOLLEN_PROCESSES_MAX + 1)
#define PANELS_PIECES_MAX (RIGPOLLEN_PROCESSES_MAX + 8) /* a few are divided */

struct panel_row {
    enum row_kind {
        ROW_LIST, ROW_TRACKER, ROW_COPY, ROW_KERNEL, ROW_STACK, ROW_SECTION
    } kind;
    uint32_t process, section;
    uint32_t first, pages; /* virtual, from the first to the last address */
    uint32_t mapped;       /* how many of them there are, or are reserved */
    int starts;            /* whether it is the first of its process */
};

/* A panel, or the part of one that is in a column. */
struct panel_piece {
    uint32_t first_row, rows;
    int column, y, height;
};

struct panels {
    struct panel_row rows[PANELS_ROWS_MAX];
    uint32_t row_count;
    struct panel_piece pieces[PANELS_PIECES_MAX];
    uint32_t piece_count;
    int columns;
};

void lay_out_panels(struct panels *panels, const struct board *board);
int panels_width(const struct panels *panels);
int panels_height(const struct panels *panels);

/* How high the last column is, and where it starts. */
int last_column_height(const struct panels *panels);
int last_column_x(const struct panels *panels);

void draw_panels(FILE *out, int x, int y, const struct panels *panels,
                 const struct board *board);

#endif
