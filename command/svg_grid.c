#include "svg_parts.h"

#include <string.h>

#define LABEL_EVERY 36 /* least height from one address to the next */
#define LABEL_GAP   8  /* from an address to its row */
#define PAD         2  /* around text */

/* Labels of runs, by the height of their box. */
#define LARGE_LABEL        16
#define LARGE_LABEL_HEIGHT 60
#define LABEL_HEIGHT       20

/* Lines of text in a cell. */
#define LINES 4
#define WORDS 2
#define WIDE_CHARACTERS 13 /* of the longest in a wide cell */

#define PATH_BYTES  160
#define WORD_BYTES  24
#define LABEL_BYTES 48

enum detail {
    EACH_PAGE, /* each page has its number and what it is */
    EACH_RUN   /* only runs have text, where there is room */
};

/* Lengths are of a cell, of its text, and from line to line. */
struct shape {
    uint32_t pages_max, columns;
    enum detail detail;
    int width, height, height_max;
    int size, line;
};

struct grid {
    const struct board *board;
    const struct uses *uses;
    const struct shape *shape;
    const struct grid_size *length;
    int x, y; /* of the first cell */
};

/* Pages that follow each other and are the same but for their address. They
 * count from the top page, 0, down. */
struct run {
    uint32_t first, last;
    const struct page_use *use; /* of the first */
};

static const struct shape shapes[] = {
    { 16, 4, EACH_PAGE, 184, 112, 112, 13, 20 },
    { 64, 8, EACH_PAGE, 98, 72, 72, 10, 15 },
    { 256, 16, EACH_PAGE, 54, 48, 48, 9, 12 },
    { 1024, 32, EACH_RUN, 24, 24, 32, 0, 0 },
    { RIGPOLLEN_RAM_PAGES_MAX, 64, EACH_RUN, 12, 12, 16, 0, 0 },
};

static int rows_of(const struct shape *shape, uint32_t pages)
{
    return (int)((pages + shape->columns - 1) / shape->columns);
}

/* The first shape for so many pages, or one with larger cells that is not
 * higher than what is free. */
static const struct shape *shape_of(uint32_t pages, int height)
{
    const struct shape *shape = shapes;

    while (shape->pages_max < pages
           && rows_of(shape, pages) * shape->height > height)
        shape++;
    return shape;
}

struct grid_size grid_size_of(uint32_t pages, int height)
{
    const struct shape *shape = shape_of(pages, height);
    const int rows = rows_of(shape, pages);
    struct grid_size size = { shape, shape->width, shape->height, 0, 0 };

    while (size.cell_height < shape->height_max
           && (size.cell_height + 1) * rows <= height) {
        size.cell_width++;
        size.cell_height++;
    }
    size.width = size.cell_width * (int)shape->columns;
    size.height = size.cell_height * rows;
    return size;
}

static const struct page_use *use_at(const struct uses *uses, uint32_t index)
{
    return &uses->pages[uses->page_count - 1 - index];
}

static struct look look_at(const struct grid *grid, const struct page_use *use)
{
    if (use->use == USE_SECTION)
        return look_of_section(grid->board, use->owner, use->section);
    return look_of(use->use, use->owner);
}

static struct run run_from(const struct uses *uses, uint32_t first)
{
    struct run run = { first, first, use_at(uses, first) };

    while (run.last + 1 < uses->page_count) {
        const struct page_use *next = use_at(uses, run.last + 1);

        if (next->use != run.use->use || next->owner != run.use->owner
            || next->process != run.use->process
            || next->section != run.use->section)
            break;
        run.last++;
    }
    return run;
}

/* The box of cells from one to another in the same row, or of whole rows. */
static struct box cells_box(const struct grid *grid, uint32_t from, uint32_t to)
{
    const uint32_t columns = grid->shape->columns;
    const int left = (int)(from % columns), right = (int)(to % columns);
    const int top = (int)(from / columns), bottom = (int)(to / columns);
    const int width = grid->length->cell_width, height = grid->length->cell_height;
    const struct box box = {
        grid->x + left * width, grid->y + top * height,
        (right - left + 1) * width, (bottom - top + 1) * height
    };

    return box;
}

/* A run that is in two rows and has no column in both is two boxes. */
static void run_path(char path[PATH_BYTES], const struct grid *grid,
                     const struct run *run)
{
    const uint32_t columns = grid->shape->columns;
    const uint32_t rows = run->last / columns - run->first / columns;
    const struct box first = cells_box(grid, run->first, run->first);
    const struct box last = cells_box(grid, run->last, run->last);
    const int right = grid->x + grid->length->width, end = last.x + last.width;

    if (rows == 0)
        snprintf(path, PATH_BYTES, "M%d,%dH%dV%dH%dz", first.x, first.y, end,
                 last.y + last.height, first.x);
    else if (rows == 1 && end <= first.x)
        snprintf(path, PATH_BYTES, "M%d,%dH%dv%dH%dzM%d,%dH%dv%dH%dz",
                 first.x, first.y, right, first.height, first.x,
                 grid->x, last.y, end, last.height, grid->x);
    else
        snprintf(path, PATH_BYTES, "M%d,%dH%dV%dH%dV%dH%dV%dH%dz",
                 first.x, first.y, right, last.y, end, last.y + last.height,
                 grid->x, first.y + first.height, first.x);
}

static uint32_t address_at(const struct grid *grid, uint32_t index)
{
    return grid->board->ram_start
           + (grid->uses->page_count - 1 - index) * RIGPOLLEN_PAGE_BYTES;
}

/* What is shown where the pointer rests on a run. */
static void write_title(FILE *out, const struct grid *grid,
                        const struct run *run)
{
    const uint32_t pages = run->last - run->first + 1;
    const uint32_t top = grid->uses->page_count - 1 - run->first;
    char what[USE_TEXT_BYTES], rights[RIGHTS_TEXT_BYTES];

    use_text(what, run->use);
    rights_text(rights, run->use->rights);
    fprintf(out, "<title>%s\n%u page%s: %u", what, pages, plural(pages), top);
    if (pages > 1)
        fprintf(out, " down to %u", top - pages + 1);
    fprintf(out, "\nphysical 0x%08X" DASH "0x%08X",
            address_at(grid, run->last),
            address_at(grid, run->first) + RIGPOLLEN_PAGE_BYTES - 1);
    if (run->use->rights != 0)
        fprintf(out, "\nvirtual from 0x%08X on, %s", run->use->address, rights);
    if (run->use->owner != 0)
        fprintf(out, "\nowner: process %u", run->use->owner);
    fprintf(out, "</title>");
}

static void fill_runs(FILE *out, const struct grid *grid)
{
    struct run run;

    fprintf(out, "<g shape-rendering=\"crispEdges\">\n");
    for (uint32_t i = 0; i < grid->uses->page_count; i = run.last + 1) {
        struct look look;
        char path[PATH_BYTES];

        run = run_from(grid->uses, i);
        look = look_at(grid, run.use);
        run_path(path, grid, &run);
        fprintf(out, "<g>");
        write_title(out, grid, &run);
        fill_path(out, &look, path);
        fprintf(out, "</g>\n");
    }
    fprintf(out, "</g>\n");
}

/* The last row may have fewer pages than the others. */
static void write_column_lines(FILE *out, const struct grid *grid)
{
    const struct grid_size *length = grid->length;
    const int columns = (int)grid->shape->columns;
    const int in_last = (int)((grid->uses->page_count - 1) % grid->shape->columns);

    for (int i = 1; i < columns; i++)
        fprintf(out, "M%d,%dv%d", grid->x + i * length->cell_width, grid->y,
                length->height - (i <= in_last ? 0 : length->cell_height));
}

static void write_row_lines(FILE *out, const struct grid *grid)
{
    const struct grid_size *length = grid->length;

    for (int y = length->cell_height; y < length->height; y += length->cell_height)
        fprintf(out, "M%d,%dh%d", grid->x, grid->y + y, length->width);
}

/* Faint lines between pages. */
static void draw_page_lines(FILE *out, const struct grid *grid)
{
    fprintf(out, "<path fill=\"none\" stroke=\"#A3AEBD\" stroke-opacity=\"0.4\""
                 " shape-rendering=\"crispEdges\" d=\"");
    write_column_lines(out, grid);
    write_row_lines(out, grid);
    fprintf(out, "\"/>\n");
}

static void draw_run_lines(FILE *out, const struct grid *grid)
{
    struct run run;

    fprintf(out, "<path fill=\"none\" stroke=\"" INK "\" stroke-opacity=\"0.8\""
                 " d=\"");
    for (uint32_t i = 0; i < grid->uses->page_count; i = run.last + 1) {
        char path[PATH_BYTES];

        run = run_from(grid->uses, i);
        run_path(path, grid, &run);
        fprintf(out, "%s", path);
    }
    fprintf(out, "\"/>\n");
}

/* From one row with an address to the next. */
static uint32_t label_step(const struct grid *grid)
{
    uint32_t step = 1;

    while ((int)step * grid->length->cell_height < LABEL_EVERY)
        step *= 2;
    return step;
}

/* The physical address of the first page of a row. */
static void write_row_labels(FILE *out, const struct grid *grid)
{
    const uint32_t columns = grid->shape->columns;
    const uint32_t rows = (uint32_t)rows_of(grid->shape, grid->uses->page_count);
    const struct pen pen = { TEXT_SIZE, PALE, NULL, "end" };

    for (uint32_t row = 0; row < rows; row += label_step(grid)) {
        const struct box box = cells_box(grid, row * columns, row * columns);

        write_text(out, &pen, grid->x - LABEL_GAP,
                   base_line(pen.size, box.y, box.height), "0x%08X",
                   address_at(grid, row * columns));
    }
}

static void numbered(char word[WORD_BYTES], const char *text, int has_number,
                     uint32_t number)
{
    if (has_number)
        snprintf(word, WORD_BYTES, "%s %u", text, number);
    else
        snprintf(word, WORD_BYTES, "%s", text);
}

/* What a page is, in two lines for a cell that is narrow or wide. */
static void cell_words(char words[WORDS][WORD_BYTES],
                       const struct page_use *use, int wide)
{
    static const char *const texts[USES][2][WORDS] = {
        { { "free", "" }, { "free", "" } },
        { { "loader", "stack" }, { "loader's", "stack, guard" } },
        { { "proc", "sect" }, { "process", "section" } },
        { { "page", "tracker" }, { "page tracker", "" } },
        { { "process", "list" }, { "process list", "" } },
        { { "block", "copy" }, { "copy of the", "boot block" } },
        { { "root of", "proc" }, { "root table", "of process" } },
        { { "leaf of", "proc" }, { "leaf table", "of process" } },
    };
    const char *const *text = texts[use->use][wide];
    const int section = use->use == USE_SECTION;
    const int table = use->use == USE_ROOT || use->use == USE_LEAF;

    numbered(words[0], text[0], section, use->process);
    numbered(words[1], text[1], section || table,
             section ? use->section : use->process);
}

/* A plain place for text on a hatch. */
static void draw_plate(FILE *out, const struct page_use *use,
                       const struct box *box)
{
    const char *fill = use->use == USE_TOP ? look_of(USE_TOP, 1).fill : "#FFFFFF";

    if (use->use != USE_SECTION && use->use != USE_FREE)
        fprintf(out, "<rect x=\"%d\" y=\"%d\" width=\"%d\" height=\"%d\""
                     " rx=\"3\" fill=\"%s\" fill-opacity=\"0.7\"/>\n",
                box->x, box->y, box->width, box->height, fill);
}

/* Page number, two words, and the virtual address where that is known and
 * there is room. */
static void cell_lines(char lines[LINES][WORD_BYTES], const struct grid *grid,
                       uint32_t index, int wide)
{
    const struct page_use *use = use_at(grid->uses, index);
    const int has_address = use->rights != 0 || use->use == USE_LEAF;

    snprintf(lines[0], WORD_BYTES, wide ? "page %u" : "%u",
             grid->uses->page_count - 1 - index);
    cell_words(&lines[1], use, wide);
    lines[3][0] = '\0';
    if (wide && has_address)
        snprintf(lines[lines[2][0] != '\0' ? 3 : 2], WORD_BYTES, "0x%08X",
                 use->address);
}

/* Around as many lines as are not empty. */
static struct box plate_of(const struct box *cell, const struct shape *shape,
                           char lines[LINES][WORD_BYTES])
{
    struct box plate = { cell->x + 2 * PAD, cell->y + 2 * PAD, 0, 2 * PAD };

    for (int i = 0; i < LINES && lines[i][0] != '\0'; i++) {
        const int width = text_width(shape->size, (int)strlen(lines[i])) + 4 * PAD;

        plate.width = width > plate.width ? width : plate.width;
        plate.height += shape->line;
    }
    return plate;
}

static void write_cell(FILE *out, const struct grid *grid, uint32_t index)
{
    const struct page_use *use = use_at(grid->uses, index);
    const struct look look = look_at(grid, use);
    const struct box cell = cells_box(grid, index, index);
    const int size = grid->shape->size, line = grid->shape->line;
    const int wide = cell.width >= text_width(size, WIDE_CHARACTERS) + 8 * PAD;
    char lines[LINES][WORD_BYTES];
    struct box plate;

    cell_lines(lines, grid, index, wide);
    plate = plate_of(&cell, grid->shape, lines);
    draw_plate(out, use, &plate);
    for (int i = 0; i < LINES && lines[i][0] != '\0'; i++) {
        const struct pen pen = { size, look.ink, i == 0 ? "bold" : NULL, NULL };

        write_text(out, &pen, plate.x + 2 * PAD,
                   base_line(size, plate.y + PAD + i * line, line), "%s",
                   lines[i]);
    }
}

/* The largest box in a run: its whole rows, or its part of one row. */
static struct box label_box(const struct grid *grid, const struct run *run)
{
    const uint32_t columns = grid->shape->columns;
    const uint32_t whole = (run->first + columns - 1) / columns * columns;
    const uint32_t part = (run->last + 1) / columns * columns;
    struct box first, last;

    if (whole < part)
        return cells_box(grid, whole, part - 1);
    if (run->first / columns == run->last / columns)
        return cells_box(grid, run->first, run->last);
    first = cells_box(grid, run->first, whole - 1);
    last = cells_box(grid, part, run->last);
    return first.width >= last.width ? first : last;
}

static void long_label(char label[LABEL_BYTES], const struct run *run)
{
    const uint32_t pages = run->last - run->first + 1;
    char what[USE_TEXT_BYTES];

    use_text(what, run->use);
    if (run->use->use == USE_SECTION)
        snprintf(label, LABEL_BYTES, "process %u, section %u",
                 run->use->process, run->use->section);
    else if (run->use->use == USE_FREE)
        snprintf(label, LABEL_BYTES, "free, %u page%s", pages, plural(pages));
    else
        snprintf(label, LABEL_BYTES, "%s", what);
}

static void short_label(char label[LABEL_BYTES], const struct run *run)
{
    if (run->use->process != 0)
        snprintf(label, LABEL_BYTES, "%u", run->use->process);
    else if (run->use->use == USE_FREE)
        snprintf(label, LABEL_BYTES, "free");
    else if (run->use->use == USE_TOP)
        snprintf(label, LABEL_BYTES, "loader");
    else
        label[0] = '\0';
}

static int label_size(const struct box *box)
{
    if (box->height >= LARGE_LABEL_HEIGHT)
        return LARGE_LABEL;
    return box->height >= LABEL_HEIGHT ? TEXT_SIZE : SMALL_SIZE;
}

static int fits(const char *label, int size, const struct box *box)
{
    return text_width(size, (int)strlen(label)) + 2 * PAD <= box->width;
}

static void write_run(FILE *out, const struct grid *grid, const struct run *run)
{
    const struct look look = look_at(grid, run->use);
    const struct box box = label_box(grid, run);
    const int size = label_size(&box);
    const struct pen pen = { size, look.ink, "bold", "middle" };
    char label[LABEL_BYTES];

    long_label(label, run);
    if (!fits(label, size, &box))
        short_label(label, run);
    if (label[0] != '\0' && fits(label, size, &box))
        write_text(out, &pen, box.x + box.width / 2,
                   base_line(size, box.y, box.height), "%s", label);
}

static void write_cells(FILE *out, const struct grid *grid)
{
    for (uint32_t i = 0; i < grid->uses->page_count; i++)
        write_cell(out, grid, i);
}

static void write_runs(FILE *out, const struct grid *grid)
{
    struct run run;

    for (uint32_t i = 0; i < grid->uses->page_count; i = run.last + 1) {
        run = run_from(grid->uses, i);
        write_run(out, grid, &run);
    }
}

void draw_grid(FILE *out, int x, int y, const struct grid_size *size,
               const struct board *board, const struct uses *uses)
{
    const struct grid grid = {
        board, uses, size->shape, size, x + GRID_LABELS, y
    };

    write_row_labels(out, &grid);
    fill_runs(out, &grid);
    fprintf(out, "<g pointer-events=\"none\">\n");
    draw_page_lines(out, &grid);
    draw_run_lines(out, &grid);
    if (grid.shape->detail == EACH_PAGE)
        write_cells(out, &grid);
    else
        write_runs(out, &grid);
    fprintf(out, "</g>\n");
}
