#include "svg_parts.h"

#include <stdarg.h>

/* Hundredths of the font's size. */
#define CHARACTER_WIDTH 61
#define HALF_OF_CAPITAL 36

#define WHITE "#FFFFFF"

/* Owner 0 is free, owner 1 the kernel. Neighbours differ in lightness or in
 * blue against yellow, which the common forms of colour blindness leave. */
static const struct look owners[RIGPOLLEN_PROCESSES_MAX + 1] = {
    { "#F3F5F8", PALE, NULL },
    { "#4A5C74", WHITE, NULL }, { "#E69F00", INK, NULL },
    { "#56B4E9", INK, NULL },   { "#04735A", WHITE, NULL },
    { "#F3EC45", INK, NULL },   { "#0A5FC4", WHITE, NULL },
    { "#F47A48", INK, NULL },   { "#4F0A4C", WHITE, NULL },
    { "#D38FAA", INK, NULL },   { "#444D0B", WHITE, NULL },
    { "#B0F3CF", INK, NULL },   { "#B63A34", WHITE, NULL },
    { "#D8C8F6", INK, NULL },   { "#0C2A1B", WHITE, NULL },
    { "#FBCB92", INK, NULL },   { "#17178F", WHITE, NULL },
};

struct look look_of(enum use use, uint32_t owner)
{
    static const char *const hatches[USES] = {
        NULL, NULL, NULL, "tracker", "list", "copy", "root", "leaf",
    };
    static const struct look top = { "#2B3038", WHITE, "top" };
    struct look look = owners[owner <= RIGPOLLEN_PROCESSES_MAX ? owner : 0];

    if (use == USE_TOP)
        return top;
    look.hatch = hatches[use];
    if (look.hatch != NULL)
        look.ink = INK;
    return look;
}

struct look look_of_section(const struct board *board, uint32_t process,
                            uint32_t section)
{
    const struct process record = process_record(&board->block, process - 1);
    struct look look = look_of(USE_SECTION, process);

    if ((section - record.first_section) % 2 != 0)
        look.hatch = "lighter";
    return look;
}

struct look look_in_place(uint32_t owner)
{
    struct look look = look_of(USE_SECTION, owner);

    look.hatch = "flash";
    return look;
}

struct look look_reserved(void)
{
    static const struct look reserved = { WHITE, PALE, "reserved" };

    return reserved;
}

/* A square tile with a veil, that lightens the owner's colour, and strokes. */
static void define_hatch(FILE *out, const char *name, int side,
                         const char *veil, const char *stroke,
                         const char *path)
{
    fprintf(out,
            "<pattern id=\"%s\" width=\"%d\" height=\"%d\""
            " patternUnits=\"userSpaceOnUse\">\n"
            "<rect width=\"%d\" height=\"%d\" fill=\"#FFFFFF\""
            " fill-opacity=\"%s\"/>"
            "<path d=\"%s\" fill=\"none\" %s/>\n</pattern>\n",
            name, side, side, side, side, veil, path, stroke);
}

void define_hatches(FILE *out)
{
    static const char dark[] = "stroke=\"#1B1F24\" stroke-opacity=\"0.34\"";
    static const char light[] = "stroke=\"#FFFFFF\" stroke-opacity=\"0.4\"";
    static const char thick[] = "stroke=\"#FFFFFF\" stroke-opacity=\"0.85\""
                                " stroke-width=\"3\"";

    fprintf(out, "<defs>\n");
    define_hatch(out, "lighter", 8, "0.2", dark, "M0,0");
    define_hatch(out, "root", 6, "0.42", dark, "M-1,1L1,-1M0,6L6,0M5,7L7,5");
    define_hatch(out, "leaf", 6, "0.72", dark, "M-1,5L1,7M0,0L6,6M5,-1L7,1");
    define_hatch(out, "tracker", 4, "0.56", dark, "M0,2H4");
    define_hatch(out, "list", 4, "0.56", dark, "M2,0V4");
    define_hatch(out, "copy", 5, "0.64", dark, "M0,2.5H5M2.5,0V5");
    define_hatch(out, "top", 6, "0", light, "M-1,1L1,-1M0,6L6,0M5,7L7,5"
                                            "M-1,5L1,7M0,0L6,6M5,-1L7,1");
    define_hatch(out, "flash", 8, "0", thick, "M-2,2L2,-2M0,8L8,0M6,10L10,6");
    define_hatch(out, "reserved", 6, "0", dark, "M1,1H3M4,4H6");
    fprintf(out, "</defs>\n");
}

void fill_path(FILE *out, const struct look *look, const char *path)
{
    fprintf(out, "<path d=\"%s\" fill=\"%s\"/>", path, look->fill);
    if (look->hatch != NULL)
        fprintf(out, "<path d=\"%s\" fill=\"url(#%s)\"/>", path, look->hatch);
}

void draw_chip(FILE *out, const struct look *look, const struct box *box)
{
    char path[64];

    snprintf(path, sizeof path, "M%d,%dh%dv%dh%dz", box->x, box->y, box->width,
             box->height, -box->width);
    fill_path(out, look, path);
    fprintf(out, "<path d=\"%s\" fill=\"none\" stroke=\"" INK "\""
                 " stroke-opacity=\"0.7\"/>\n", path);
}

void write_text(FILE *out, const struct pen *pen, int x, int y,
                const char *format, ...)
{
    va_list values;

    fprintf(out, "<text x=\"%d\" y=\"%d\" font-size=\"%d\" fill=\"%s\"", x, y,
            pen->size, pen->fill);
    if (pen->weight != NULL)
        fprintf(out, " font-weight=\"%s\"", pen->weight);
    if (pen->anchor != NULL)
        fprintf(out, " text-anchor=\"%s\"", pen->anchor);
    fprintf(out, ">");
    va_start(values, format);
    vfprintf(out, format, values);
    va_end(values);
    fprintf(out, "</text>\n");
}

int text_width(int size, int characters)
{
    return (size * characters * CHARACTER_WIDTH + 99) / 100;
}

int base_line(int size, int top, int height)
{
    return top + (height * 100 + 2 * size * HALF_OF_CAPITAL + 100) / 200;
}
