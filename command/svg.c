#include "svg.h"

#include <string.h>

#include "svg_parts.h"

#define MARGIN        24
#define TITLE_SIZE    20
#define SUBTITLE_SIZE 12
#define SUBTITLE_LINE 20
#define HEADING_SIZE  14
#define CONTENT_TOP   84 /* below the title */
#define HEADING       30 /* height of the line above grid and panels */
#define COLUMN_GAP    36

#define LEGEND_GAP    28
#define LEGEND_LINE   22
#define LEGEND_PART   8  /* between owners, uses and notes */
#define LEGEND_WIDTH  690
#define OWNERS_ACROSS 3
#define USES_ACROSS   3
#define NOTE_LINE     18
#define SAMPLE_TEXT   8  /* from a chip to its text */
#define SAMPLE_BYTES  32

/* Where the parts are, and how large the picture is. */
struct layout {
    struct grid_size grid;
    int panels_x, legend_x, legend_y, width, height;
};

struct sample {
    enum use use;
    const char *text;
};

static const struct sample samples[] = {
    { USE_SECTION, "section, in RAM" },
    { USE_ROOT, "root table" },
    { USE_LEAF, "leaf table" },
    { USE_TRACKER, "page tracker" },
    { USE_LIST, "process list" },
    { USE_COPY, "copy of the boot block" },
    { USE_TOP, "loader's stack and guard" },
};

#define SAMPLES (sizeof samples / sizeof samples[0])

static const char *const notes[] = {
    "Rights: r read, w write, x execute, u for user code; - where one is missing.",
    "Sections of a process have two shades in turn. A dotted line: addresses"
    " without a page.",
    "Taken pages that no section has belong to process 1; the number on a table"
    " is its process.",
};

#define NOTES ((int)(sizeof notes / sizeof notes[0]))

static int lines_of(uint32_t count, uint32_t across)
{
    return (int)((count + across - 1) / across);
}

/* Heading, owners and free, uses with flash and reserved, notes. */
static int legend_height(const struct board *board)
{
    const int lines = 1 + lines_of(process_count(&board->block) + 1, OWNERS_ACROSS)
                      + lines_of(SAMPLES + 2, USES_ACROSS);

    return lines * LEGEND_LINE + 2 * LEGEND_PART + NOTES * NOTE_LINE;
}

static int larger(int a, int b)
{
    return a > b ? a : b;
}

/* The legend goes below the grid or below the last panel: where the picture
 * stays less high. */
static struct layout lay_out(const struct board *board,
                             const struct panels *panels, uint32_t pages)
{
    const int top = CONTENT_TOP + HEADING;
    const int all_panels = panels_height(panels);
    const int last = last_column_height(panels);
    const int legend = LEGEND_GAP + legend_height(board);
    struct layout layout;
    int below_grid, below_panels;

    layout.grid = grid_size_of(pages, all_panels - legend);
    below_grid = larger(layout.grid.height + legend, all_panels);
    below_panels = larger(larger(layout.grid.height, all_panels), last + legend);
    layout.panels_x = MARGIN + GRID_LABELS + layout.grid.width + COLUMN_GAP;
    layout.legend_x = MARGIN + GRID_LABELS;
    layout.legend_y = top + layout.grid.height + LEGEND_GAP;
    layout.width = layout.panels_x + panels_width(panels) + MARGIN;
    layout.height = top + below_grid + MARGIN;
    if (below_panels < below_grid) {
        layout.legend_x = layout.panels_x + last_column_x(panels);
        layout.legend_y = top + last + LEGEND_GAP;
        layout.height = top + below_panels + MARGIN;
    }
    return layout;
}

static void start_picture(FILE *out, const struct board *board,
                          const struct layout *layout)
{
    const uint32_t pages = (uint32_t)board->ram_pages;

    fprintf(out,
            "<svg xmlns=\"http://www.w3.org/2000/svg\" version=\"1.1\""
            " width=\"%d\" height=\"%d\" viewBox=\"0 0 %d %d\""
            " font-family=\"'DejaVu Sans Mono', Menlo, Consolas, monospace\">\n"
            "<title>Rigpollen: a loaded board</title>\n"
            "<desc>RAM of %u page%s at 0x%08X as a grid coloured by owner, %u"
            " taken and %u free, and the address space of each of %u"
            " process%s.</desc>\n"
            "<rect width=\"%d\" height=\"%d\" fill=\"#FFFFFF\"/>\n",
            layout->width, layout->height, layout->width, layout->height, pages,
            plural(pages), board->ram_start,
            board->answer[RIGPOLLEN_ANSWER_TAKEN],
            board->answer[RIGPOLLEN_ANSWER_FREE], process_count(&board->block),
            process_count(&board->block) == 1 ? "" : "es", layout->width,
            layout->height);
}

static void write_heads(FILE *out, const struct board *board)
{
    const struct pen title = { TITLE_SIZE, INK, "bold", NULL };
    const struct pen subtitle = { SUBTITLE_SIZE, PALE, NULL, NULL };
    const uint32_t pages = (uint32_t)board->ram_pages;
    const uint32_t processes = process_count(&board->block);
    const uint32_t sections = section_count(&board->block);
    const uint32_t regions = region_count(&board->block);

    write_text(out, &title, MARGIN, MARGIN + TITLE_SIZE,
               "RAM at 0x%08X: %u page%s, %u taken, %u free", board->ram_start,
               pages, plural(pages), board->answer[RIGPOLLEN_ANSWER_TAKEN],
               board->answer[RIGPOLLEN_ANSWER_FREE]);
    write_text(out, &subtitle, MARGIN, MARGIN + TITLE_SIZE + SUBTITLE_LINE,
               "boot block of %u bytes: %u process%s, %u section%s,"
               " %u I/O region%s; flash at 0x%08X: %llu byte%s",
               (unsigned)board->block.length, processes,
               processes == 1 ? "" : "es", sections, plural(sections), regions,
               plural(regions), board->flash_start,
               (unsigned long long)board->flash.length,
               plural(board->flash.length));
}

static void write_heading(FILE *out, int x, const char *heading,
                          const char *caption)
{
    const struct pen bold = { HEADING_SIZE, INK, "bold", NULL };
    const struct pen plain = { TEXT_SIZE, PALE, NULL, NULL };
    const int y = CONTENT_TOP + HEADING_SIZE;

    write_text(out, &bold, x, y, "%s", heading);
    write_text(out, &plain,
               x + text_width(HEADING_SIZE, (int)strlen(heading) + 1), y, "%s",
               caption);
}

static void write_sample(FILE *out, const struct look *look, int x, int y,
                         const char *number, const char *text)
{
    const struct box chip = { x, y, CHIP_WIDTH, CHIP_HEIGHT };
    const struct pen in_chip = { TEXT_SIZE, look->ink, "bold", "middle" };
    const struct pen beside = { TEXT_SIZE, INK, NULL, NULL };
    const int line = base_line(TEXT_SIZE, y, CHIP_HEIGHT);

    draw_chip(out, look, &chip);
    if (number[0] != '\0')
        write_text(out, &in_chip, x + CHIP_WIDTH / 2, line, "%s", number);
    write_text(out, &beside, x + CHIP_WIDTH + SAMPLE_TEXT, line, "%s", text);
}

static void owner_text(char text[SAMPLE_BYTES], uint32_t owner, uint32_t pages)
{
    if (owner > 1)
        snprintf(text, SAMPLE_BYTES, "process %u, %u page%s", owner, pages,
                 plural(pages));
    else
        snprintf(text, SAMPLE_BYTES, "%s, %u page%s",
                 owner == 1 ? "kernel" : "free", pages, plural(pages));
}

/* Owner 0, free, comes last. */
static void draw_owners(FILE *out, const struct board *board, int x, int y)
{
    const uint32_t count = process_count(&board->block) + 1;

    for (uint32_t i = 0; i < count; i++) {
        const uint32_t owner = (i + 1) % count;
        const struct look look = look_of(owner != 0 ? USE_SECTION : USE_FREE,
                                         owner);
        char number[SAMPLE_BYTES] = "", text[SAMPLE_BYTES];

        if (owner != 0)
            snprintf(number, sizeof number, "%u", owner);
        owner_text(text, owner, pages_of(board, owner));
        write_sample(out, &look, x + (int)(i % OWNERS_ACROSS)
                                         * (LEGEND_WIDTH / OWNERS_ACROSS),
                     y + (int)(i / OWNERS_ACROSS) * LEGEND_LINE, number, text);
    }
}

static void draw_samples(FILE *out, int x, int y)
{
    for (size_t i = 0; i < SAMPLES + 2; i++) {
        const struct look look = i < SAMPLES ? look_of(samples[i].use, 1)
                                 : i == SAMPLES ? look_in_place(1)
                                                : look_reserved();
        const char *text = i < SAMPLES ? samples[i].text
                           : i == SAMPLES ? "section, in place in flash"
                                          : "reserved, no RAM yet";

        write_sample(out, &look,
                     x + (int)(i % USES_ACROSS) * (LEGEND_WIDTH / USES_ACROSS),
                     y + (int)(i / USES_ACROSS) * LEGEND_LINE, "", text);
    }
}

static void draw_legend(FILE *out, const struct board *board, int x, int y)
{
    const struct pen bold = { HEADING_SIZE, INK, "bold", NULL };
    const struct pen plain = { TEXT_SIZE, INK, NULL, NULL };
    const int owners = lines_of(process_count(&board->block) + 1, OWNERS_ACROSS);

    write_text(out, &bold, x, base_line(HEADING_SIZE, y, CHIP_HEIGHT),
               "Owners and uses");
    y += LEGEND_LINE;
    draw_owners(out, board, x, y);
    y += owners * LEGEND_LINE + LEGEND_PART;
    draw_samples(out, x, y);
    y += lines_of(SAMPLES + 2, USES_ACROSS) * LEGEND_LINE + LEGEND_PART;
    for (int i = 0; i < NOTES; i++)
        write_text(out, &plain, x,
                   base_line(TEXT_SIZE, y + i * NOTE_LINE, NOTE_LINE), "%s",
                   notes[i]);
}

void draw_svg(FILE *out, const struct board *board, const struct uses *uses)
{
    struct panels panels;
    struct layout layout;

    lay_out_panels(&panels, board);
    layout = lay_out(board, &panels, uses->page_count);
    start_picture(out, board, &layout);
    define_hatches(out);
    write_heads(out, board);
    write_heading(out, MARGIN + GRID_LABELS, "Pages of RAM",
                  "from the top page down, left to right");
    write_heading(out, layout.panels_x, "Address spaces",
                  "from high addresses to low");
    draw_grid(out, MARGIN, CONTENT_TOP + HEADING, &layout.grid, board, uses);
    draw_panels(out, layout.panels_x, CONTENT_TOP + HEADING, &panels, board);
    draw_legend(out, board, layout.legend_x, layout.legend_y);
    fprintf(out, "</svg>\n");
}
