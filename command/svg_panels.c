#include "svg_parts.h"

#include <limits.h>
#include <string.h>

#define PANEL_WIDTH   692
#define COLUMN_GAP    24
#define HEADINGS      22 /* height of the line above each column */
#define HEADINGS_BASE 12
#define HEAD_BAND     24
#define PIECE_HEAD    28 /* with the space below the band */
#define PIECE_FOOT    6
#define PIECE_GAP     14
#define ROW_HEIGHT    17
#define COLUMN_HIGH   1050 /* higher than this, two columns are better */
#define LIMIT_STEP    8

/* The height of a gap grows with the logarithm of its pages. */
#define GAP_HEIGHT    5
#define GAP_GROWTH    2
#define GAP_BASE      16

/* From a panel's left edge. */
#define HEAD_CHIP     6
#define HEAD_NAME     40
#define HEAD_FACTS    190
#define GAP_END       54
#define STRIP         60
#define STRIP_WIDTH   16
#define ADDRESSES     86
#define PAGES_END     268
#define RIGHTS        280
#define WHAT          320
#define RAM_PAGES     446
#define PHYSICAL      546

static uint32_t page_of(uint32_t address)
{
    return address / RIGPOLLEN_PAGE_BYTES;
}

static void add_row(struct panels *panels, enum row_kind kind, uint32_t process,
                    uint32_t first, uint32_t pages)
{
    struct panel_row *row = &panels->rows[panels->row_count];

    row->kind = kind;
    row->process = process;
    row->first = first;
    row->pages = pages;
    row->mapped = pages;
    row->starts = panels->row_count == 0 || row[-1].process != process;
    panels->row_count++;
}

/* From high addresses to low: section records of a process rise. */
static void add_sections(struct panels *panels, const struct board *board,
                         uint32_t process)
{
    const struct process record = process_record(&board->block, process - 1);

    for (uint32_t i = record.sections; i-- > 0;) {
        const uint32_t n = record.first_section + i;
        const struct section section = section_record(&board->block, n);

        add_row(panels, ROW_SECTION, process, first_page(&section),
                last_page(&section) - first_page(&section) + 1);
        panels->rows[panels->row_count - 1].section = n;
    }
}

/* The pages of the kernel, which has its rows before all others. */
static uint32_t kernel_pages(const struct panels *panels)
{
    uint32_t pages = 0;

    for (uint32_t i = 0; panels->rows[i].process == 1; i++)
        pages += panels->rows[i].pages;
    return pages;
}

static void add_process(struct panels *panels, const struct board *board,
                        uint32_t process)
{
    if (process == 1) {
        add_row(panels, ROW_LIST, process,
                page_of(RIGPOLLEN_PROCESS_LIST_ADDRESS), 1);
        add_row(panels, ROW_TRACKER, process, page_of(RIGPOLLEN_TRACKER_ADDRESS),
                board->answer[RIGPOLLEN_ANSWER_TRACKER]);
        add_row(panels, ROW_COPY, process, page_of(RIGPOLLEN_BLOCK_COPY_ADDRESS),
                1);
    } else {
        const uint32_t stack = reserved_pages(board, process);

        add_row(panels, ROW_KERNEL, process, page_of(RIGPOLLEN_KERNEL_FIRST),
                RIGPOLLEN_TABLE_ENTRIES);
        panels->rows[panels->row_count - 1].mapped = kernel_pages(panels);
        add_row(panels, ROW_STACK, process,
                page_of(RIGPOLLEN_STACK_POINTER) - stack, stack);
    }
    add_sections(panels, board, process);
}

/* Pages that a process does not have between a row and the one above it. */
static uint32_t pages_above(const struct panel_row *row)
{
    return row->starts ? 0 : row[-1].first - row->first - row->pages;
}

static int gap_height(uint32_t pages)
{
    int height = pages != 0 ? GAP_HEIGHT : 0;

    for (; pages >= GAP_BASE; pages /= GAP_BASE)
        height += GAP_GROWTH;
    return height;
}

static int row_height(const struct panel_row *row)
{
    return gap_height(pages_above(row)) + ROW_HEIGHT;
}

static int panel_height(const struct panels *panels, uint32_t first)
{
    uint32_t i = first;
    int height = PIECE_HEAD + PIECE_FOOT;

    do
        height += row_height(&panels->rows[i++]);
    while (i < panels->row_count && !panels->rows[i].starts);
    return height;
}

static void start_piece(struct panels *panels, uint32_t first_row, int column,
                        int y)
{
    const struct panel_piece piece = {
        first_row, 0, column, y, PIECE_HEAD + PIECE_FOOT
    };

    panels->pieces[panels->piece_count++] = piece;
}

/* A panel goes below the last one, or in the next column if it does not fit
 * and is not so high that it is better to divide it. */
static void start_panel(struct panels *panels, uint32_t row, int limit)
{
    const struct panel_piece *last = &panels->pieces[panels->piece_count - 1];
    const int y = last->y + last->height + PIECE_GAP;
    const int height = panel_height(panels, row);
    const int least = height > limit / 2 ? limit / 4 : height;

    if (y + least > limit)
        start_piece(panels, row, last->column + 1, 0);
    else
        start_piece(panels, row, last->column, y);
}

/* Lay out in columns that are not higher than a limit. */
static void flow(struct panels *panels, int limit)
{
    panels->piece_count = 0;
    start_piece(panels, 0, 0, 0);
    for (uint32_t i = 0; i < panels->row_count; i++) {
        const struct panel_row *row = &panels->rows[i];
        struct panel_piece *piece;

        if (row->starts && i != 0)
            start_panel(panels, i, limit);
        piece = &panels->pieces[panels->piece_count - 1];
        if (piece->rows != 0
            && piece->y + piece->height + row_height(row) > limit) {
            start_piece(panels, i, piece->column + 1, 0);
            piece++;
        }
        piece->height += piece->rows != 0 ? row_height(row) : ROW_HEIGHT;
        piece->rows++;
    }
    panels->columns = panels->pieces[panels->piece_count - 1].column + 1;
}

static void add_processes(struct panels *panels, const struct board *board)
{
    for (uint32_t i = 1; i <= process_count(&board->block); i++)
        add_process(panels, board, i);
}

/* In one column or, where that is too high, in two as low as can be. */
void lay_out_panels(struct panels *panels, const struct board *board)
{
    int limit = COLUMN_HIGH;

    memset(panels, 0, sizeof *panels);
    add_processes(panels, board);
    flow(panels, INT_MAX);
    if (panels_height(panels) > COLUMN_HIGH)
        limit = panels_height(panels) / 2;
    do
        flow(panels, limit += LIMIT_STEP);
    while (panels->columns > 2);
}

int panels_width(const struct panels *panels)
{
    return last_column_x(panels) + PANEL_WIDTH;
}

int panels_height(const struct panels *panels)
{
    int height = 0;

    for (uint32_t i = 0; i < panels->piece_count; i++) {
        const int end = panels->pieces[i].y + panels->pieces[i].height;

        if (end > height)
            height = end;
    }
    return HEADINGS + height;
}

int last_column_height(const struct panels *panels)
{
    const struct panel_piece *last = &panels->pieces[panels->piece_count - 1];

    return HEADINGS + last->y + last->height;
}

int last_column_x(const struct panels *panels)
{
    return (panels->columns - 1) * (PANEL_WIDTH + COLUMN_GAP);
}

/* What stands in a column's lines. */
static void write_column_heads(FILE *out, int x, int y)
{
    const struct pen start = { SMALL_SIZE, PALE, NULL, NULL };
    const struct pen end = { SMALL_SIZE, PALE, NULL, "end" };

    write_text(out, &end, x + GAP_END, y, "gap");
    write_text(out, &start, x + ADDRESSES, y, "virtual addresses");
    write_text(out, &end, x + PAGES_END, y, "pages");
    write_text(out, &start, x + RIGHTS, y, "rights");
    write_text(out, &start, x + WHAT, y, "what");
    write_text(out, &start, x + RAM_PAGES, y, "where");
    write_text(out, &start, x + PHYSICAL, y, "physical addresses");
}

static void write_heads(FILE *out, int x, int y, int columns)
{
    for (int i = 0; i < columns; i++)
        write_column_heads(out, x + i * (PANEL_WIDTH + COLUMN_GAP), y + HEADINGS_BASE);
}

/* Its frame, and who it is. */
static void draw_head(FILE *out, int x, int y, const struct panel_piece *piece,
                      const struct panel_row *row, const struct board *board)
{
    const struct look look = look_of(USE_SECTION, row->process);
    const struct process record = process_record(&board->block, row->process - 1);
    const struct box chip = {
        x + HEAD_CHIP, y + (HEAD_BAND - CHIP_HEIGHT) / 2, CHIP_WIDTH, CHIP_HEIGHT
    };
    const struct pen number = { TEXT_SIZE, look.ink, "bold", "middle" };
    const struct pen bold = { TEXT_SIZE + 1, INK, "bold", NULL };
    const struct pen plain = { TEXT_SIZE, INK, NULL, NULL };
    const uint32_t owned = pages_of(board, row->process);
    const int line = base_line(TEXT_SIZE, chip.y, chip.height);

    fprintf(out,
            "<path d=\"M%d,%dh%dv%dh%dz\" fill=\"" BAND "\"/>"
            "<path d=\"M%d,%dh%dv%dh%dz\" fill=\"none\" stroke=\"" LINE "\"/>\n",
            x, y, PANEL_WIDTH, HEAD_BAND, -PANEL_WIDTH, x, y, PANEL_WIDTH,
            piece->height, -PANEL_WIDTH);
    draw_chip(out, &look, &chip);
    write_text(out, &number, chip.x + chip.width / 2, line, "%u", row->process);
    write_text(out, &bold, x + HEAD_NAME, line, "%s %u",
               row->process == 1 ? "kernel, process" : "process", row->process);
    if (!row->starts) {
        write_text(out, &plain, x + HEAD_FACTS, line, "continued");
        return;
    }
    write_text(out, &plain, x + HEAD_FACTS, line,
               "owns %u page%s, root table 0x%08X, entry point 0x%08X%s", owned,
               plural(owned), board->roots[row->process] * RIGPOLLEN_PAGE_BYTES,
               record.entry_point,
               record.kind_word & RIGPOLLEN_KIND_MASK ? ", kind 1" : "");
}

/* How many bytes are not mapped, rounded to tenths of the unit. */
static void write_gap_size(FILE *out, int x, int y, uint32_t pages)
{
    const struct pen pen = { SMALL_SIZE, PALE, NULL, "end" };
    const uint32_t kib = pages * (RIGPOLLEN_PAGE_BYTES / 1024);
    const uint32_t mib_tenths = (uint32_t)(((uint64_t)kib * 10 + 512) / 1024);
    const uint32_t gib_tenths = (mib_tenths + 512) / 1024;

    if (kib < 1024)
        write_text(out, &pen, x, y, "%u KiB", kib);
    else if (mib_tenths < 10000)
        write_text(out, &pen, x, y, "%u.%u MiB", mib_tenths / 10, mib_tenths % 10);
    else
        write_text(out, &pen, x, y, "%u.%u GiB", gib_tenths / 10, gib_tenths % 10);
}

/* A dotted line in the strip, and the size beside it. */
static void draw_gap(FILE *out, int x, int y, uint32_t pages)
{
    const int height = gap_height(pages);

    if (pages == 0)
        return;
    fprintf(out, "<path d=\"M%d,%dv%d\" fill=\"none\" stroke=\"" INK "\""
                 " stroke-width=\"2\" stroke-dasharray=\"1,2\"/>\n",
            x + STRIP + STRIP_WIDTH / 2, y + 1, height - 1);
    write_gap_size(out, x + GAP_END, base_line(SMALL_SIZE, y, height), pages);
}

static struct look row_look(const struct panel_row *row,
                            const struct board *board)
{
    const uint32_t page = seen_at(board, row->process,
                                  row->first * RIGPOLLEN_PAGE_BYTES).page;
    uint32_t ram_page;

    switch (row->kind) {
    case ROW_LIST:
        return look_of(USE_LIST, 1);
    case ROW_TRACKER:
        return look_of(USE_TRACKER, 1);
    case ROW_COPY:
        return look_of(USE_COPY, 1);
    case ROW_KERNEL:
        return look_of(USE_SECTION, 1);
    case ROW_STACK:
        return look_reserved();
    default:
        return in_ram(board, page, &ram_page)
                   ? look_of_section(board, row->process, row->section)
                   : look_in_place(row->process);
    }
}

/* The physical pages: RAM's are taken from the top down. */
static void write_where(FILE *out, int x, int y, const struct panel_row *row,
                        const struct board *board)
{
    const struct pen pen = { TEXT_SIZE, INK, NULL, NULL };
    const uint32_t last = row->first + row->pages - 1;
    const uint32_t at_first = seen_at(board, row->process,
                                      row->first * RIGPOLLEN_PAGE_BYTES).page;
    const uint32_t at_last = seen_at(board, row->process,
                                     last * RIGPOLLEN_PAGE_BYTES).page;
    const uint32_t low = at_first < at_last ? at_first : at_last;
    const uint32_t high = at_first < at_last ? at_last : at_first;
    uint32_t from, to;

    if (!in_ram(board, at_first, &from) || !in_ram(board, at_last, &to))
        write_text(out, &pen, x + RAM_PAGES, y, "flash");
    else if (from == to)
        write_text(out, &pen, x + RAM_PAGES, y, "RAM %u", from);
    else
        write_text(out, &pen, x + RAM_PAGES, y, "RAM %u" DASH "%u", from, to);
    write_text(out, &pen, x + PHYSICAL, y, "0x%08X" DASH "0x%08X",
               low * RIGPOLLEN_PAGE_BYTES,
               high * RIGPOLLEN_PAGE_BYTES + (RIGPOLLEN_PAGE_BYTES - 1));
}

static void write_what(FILE *out, int x, int y, const struct panel_row *row)
{
    static const char *const words[] = {
        "process list", "page tracker", "copy of the block", "kernel's part",
        "stack, reserved",
    };
    const struct pen pen = { TEXT_SIZE, INK, NULL, NULL };

    if (row->kind == ROW_SECTION)
        write_text(out, &pen, x + WHAT, y, "section record %u", row->section);
    else
        write_text(out, &pen, x + WHAT, y, "%s", words[row->kind]);
}

/* What is mapped there, how, and where it is. */
static void write_mapping(FILE *out, int x, int y, const struct panel_row *row,
                          const struct board *board)
{
    const struct pen pen = { TEXT_SIZE, INK, NULL, NULL };
    const struct pen pale = { TEXT_SIZE, PALE, NULL, NULL };
    char rights[RIGHTS_TEXT_BYTES];

    write_what(out, x, y, row);
    if (row->kind == ROW_KERNEL) {
        write_text(out, &pale, x + RIGHTS, y, "no u");
        write_text(out, &pale, x + RAM_PAGES, y, "by the leaf table of process 1");
    } else if (row->kind == ROW_STACK) {
        write_text(out, &pale, x + RIGHTS, y, "none");
        write_text(out, &pale, x + RAM_PAGES, y, "no RAM yet");
    } else {
        rights_text(rights, seen_at(board, row->process,
                                    row->first * RIGPOLLEN_PAGE_BYTES).rights);
        write_text(out, &pen, x + RIGHTS, y, "%s", rights);
        write_where(out, x, y, row, board);
    }
}

static void draw_row(FILE *out, int x, int y, const struct panel_row *row,
                     const struct board *board)
{
    const struct look look = row_look(row, board);
    const struct box chip = { x + STRIP, y, STRIP_WIDTH, ROW_HEIGHT };
    const struct pen start = { TEXT_SIZE, INK, NULL, NULL };
    const struct pen end = { TEXT_SIZE, INK, NULL, "end" };
    const int line = base_line(TEXT_SIZE, y, ROW_HEIGHT);

    draw_chip(out, &look, &chip);
    write_text(out, &start, x + ADDRESSES, line, "0x%08X" DASH "0x%08X",
               row->first * RIGPOLLEN_PAGE_BYTES,
               (row->first + row->pages) * RIGPOLLEN_PAGE_BYTES - 1);
    write_text(out, &end, x + PAGES_END, line, "%u", row->mapped);
    write_mapping(out, x, line, row, board);
}

static void draw_piece(FILE *out, int x, int y, const struct panels *panels,
                       const struct panel_piece *piece, const struct board *board)
{
    draw_head(out, x, y, piece, &panels->rows[piece->first_row], board);
    y += PIECE_HEAD;
    for (uint32_t i = 0; i < piece->rows; i++) {
        const struct panel_row *row = &panels->rows[piece->first_row + i];

        if (i != 0) {
            draw_gap(out, x, y, pages_above(row));
            y += gap_height(pages_above(row));
        }
        draw_row(out, x, y, row, board);
        y += ROW_HEIGHT;
    }
}

void draw_panels(FILE *out, int x, int y, const struct panels *panels,
                 const struct board *board)
{
    write_heads(out, x, y, panels->columns);
    for (uint32_t i = 0; i < panels->piece_count; i++) {
        const struct panel_piece *piece = &panels->pieces[i];

        draw_piece(out, x + piece->column * (PANEL_WIDTH + COLUMN_GAP),
                   y + HEADINGS + piece->y, panels, piece, board);
    }
}
