/* repaint.c: the rectangles that drawings tell, by numbers worked out from the rules by hand; document 02, K7. */
#include <stdio.h>
#include <string.h>

#include "examples.h"
#include "pistonwool.h"

/* kinds of figures, by the numbers of their records */
enum kind { LINE = 1, RING = 3, CURVE = 4, CUBIC = 5 };

/* a figure by its numbers in the record's order, and the rectangle that it has on its sheet: x, y, width and height */
struct figure {
    const char *example;
    enum kind kind;
    int64_t n[9];
    uint32_t box[4];
};

/* how the bytes are lent */
struct sheet {
    size_t len;
    uint32_t width, height, pitch;
};
enum { WIDTH = 17, HEIGHT = 9, PITCH = 24, NOISE = 170 };
static uint8_t bytes[PITCH * HEIGHT];

/* what is told; before each drawing all of it is noise */
static uint32_t box[4], cells;
static uint64_t value;

static void noise(void) { memset(box, NOISE, sizeof box); }

/* a sheet of this size, with so much padding after each row; all its bytes are 0 */
static struct sheet sheet(uint32_t width, uint32_t height, uint32_t padding) {
    uint32_t pitch = width + padding;
    memset(bytes, 0, sizeof bytes);
    return (struct sheet){(size_t)pitch * height, width, height, pitch};
}

/* how many cells are set */
static int set(void) {
    int n = 0;
    for (size_t i = 0; i < sizeof bytes; i++)
        n += bytes[i] != 0;
    return n;
}

/* ways to draw a figure with ink 1: in cells, as the one record of a file, and lines and rings in metres */
typedef uint32_t way(const struct sheet *s, enum kind kind, const int64_t *n);

static uint32_t in_cells(const struct sheet *s, enum kind kind, const int64_t *n) {
    noise();
    switch (kind) {
    case LINE: return pw_line(bytes, s->len, s->width, s->height, s->pitch, 1, n[0], n[1], n[2], n[3], &cells, box);
    case RING: return pw_ellipse(bytes, s->len, s->width, s->height, s->pitch, 1, n[0], n[1], n[2], n[3], box);
    case CURVE:
        return pw_curve(bytes, s->len, s->width, s->height, s->pitch, 1, n[0], n[1], n[2], n[3], n[4], n[5], n[6], box);
    default:
        return pw_cubic(bytes, s->len, s->width, s->height, s->pitch, 1, n[0], n[1], n[2], n[3], n[4], n[5], n[6], n[7],
                        n[8], box);
    }
}

/* the middle of each cell, by cells of this size from (1000, 2000) on */
static double size = 25.0;
static uint32_t in_metres(const struct sheet *s, enum kind kind, const int64_t *n) {
    double east = 1000.0, north = 2000.0, x = east + size / 2, y = north + size / 2;
    noise();
    if (kind == LINE)
        return pw_line_metres(bytes, s->len, s->width, s->height, s->pitch, 1, east, north, size, x + size * n[0],
                              y + size * n[1], x + size * n[2], y + size * n[3], &cells, box);
    return pw_ellipse_metres(bytes, s->len, s->width, s->height, s->pitch, 1, east, north, size, x + size * n[0],
                             y + size * n[1], size * n[2], size * n[3], box);
}

/* the file in the buffer */
static uint32_t file(const struct sheet *s) {
    noise();
    value = 99;
    return pw_file(bytes, s->len, s->width, s->height, s->pitch, buffer, filled, &value, box);
}

static uint32_t in_file(const struct sheet *s, enum kind kind, const int64_t *n) {
    filled = 0;
    same("a figure is written", append(kind, n, sizeof buffer), PW_DONE);
    return file(s);
}

/* the ways that know a kind are the first so many */
static way *const ways[] = {in_cells, in_file, in_metres};
static size_t ways_of(enum kind kind) { return kind == LINE || kind == RING ? 3 : 2; }

/* holds what was told to these four numbers */
static void told(const char *example, const char *how, const uint32_t expected[4]) {
    static const char *const names[] = {"x", "y", "width", "height"};
    char said[160];
    for (int i = 0; i < 4; i++) {
        snprintf(said, sizeof said, "%s, %s: %s to repaint", example, how, names[i]);
        same(said, box[i], expected[i]);
    }
}

/* a figure drawn in one way: where rows have padding, where they have none, and again over its own ink */
static void drawn(const struct figure *f, uint32_t width, uint32_t height, way *draw) {
    struct sheet s = sheet(width, height, PITCH - WIDTH);
    same(f->example, draw(&s, f->kind, f->n), PW_DONE);
    told(f->example, "with padding", f->box);
    s = sheet(width, height, 0);
    same(f->example, draw(&s, f->kind, f->n), PW_DONE);
    told(f->example, "drawn", f->box);
    if (f->kind == LINE && draw != in_file)
        same("a line tells its number of cells too", cells, set());
    same(f->example, draw(&s, f->kind, f->n), PW_DONE);
    told(f->example, "drawn again", f->box);
}

/* figures on a sheet of this size, in each way */
static void figures(const struct figure *figures, size_t count, uint32_t width, uint32_t height) {
    for (const struct figure *f = figures; f < figures + count; f++)
        for (size_t w = 0; w < ways_of(f->kind); w++)
            drawn(f, width, height, ways[w]);
}

/* on columns 0 to 16 and rows 0 to 8; {0} is none */
static const struct figure on_sheet[] = {
    {"a line left of the sheet", LINE, {-9, 0, -1, 8}, {0}},
    {"a line right of it", LINE, {17, 8, 40, 0}, {0}},
    {"a line above it", LINE, {0, -5, 16, -1}, {0}},
    {"a line below it", LINE, {0, 9, 16, 9}, {0}},
    {"a line past its corner", LINE, {-4, 3, 3, -4}, {0}},
    {"a line of one cell", LINE, {5, 3, 5, 3}, {5, 3, 1, 1}},
    {"a line of the first cell", LINE, {0, 0, 0, 0}, {0, 0, 1, 1}},
    {"a line of the last cell", LINE, {16, 8, 16, 8}, {16, 8, 1, 1}},
    {"a line that begins in the last cell", LINE, {16, 8, 20, 12}, {16, 8, 1, 1}},
    {"a line of one row", LINE, {9, 6, 2, 6}, {2, 6, 8, 1}},
    {"a line through a row", LINE, {-16384, 0, 16383, 0}, {0, 0, 17, 1}},
    {"a line of one column", LINE, {12, 5, 12, 1}, {12, 1, 1, 5}},
    {"a line through a column", LINE, {16, -16384, 16, 16383}, {16, 0, 1, 9}},
    {"a line from corner to corner of the limits", LINE, {-16384, -16384, 16383, 16383}, {0, 0, 9, 9}},
    /* y is 1 + floor((n + 1) / 2) at x = n - 4, so it comes in at (0, 3) and leaves after (10, 8) */
    {"a line clipped at its left and below", LINE, {-4, 1, 20, 13}, {0, 3, 11, 6}},
    {"the same from its other end", LINE, {20, 13, -4, 1}, {0, 3, 11, 6}},
    /* x is 6 + floor((2n + 5) / 10) at y = n - 10: 8 in rows 0 to 2, 9 in rows 3 to 7, 10 in row 8 */
    {"a steep line clipped above and below", LINE, {6, -10, 10, 10}, {8, 0, 3, 9}},
    /* y is floor((n + 1) / 2) - 1 at x = 18 - n: (17, 0) is off the sheet and (16, 0) on it */
    {"a line clipped above and at its right", LINE, {18, -1, 8, 4}, {8, 0, 9, 5}},

    {"a ring left of the sheet", RING, {-10, 3, 9, 9}, {0}},
    {"a ring right of it", RING, {27, 3, 10, 4}, {0}},
    {"a ring above it", RING, {8, -6, 3, 5}, {0}},
    {"a ring below it", RING, {8, 16383, 16383, 16374}, {0}},
    {"a ring past its corner", RING, {-7, -7, 8, 8}, {0}},
    {"a ring all round it", RING, {8, 4, 100, 100}, {0}},
    {"both axes 0", RING, {1, 2, 0, 0}, {1, 2, 1, 1}},
    {"both axes 0 off the sheet", RING, {-1, 2, 0, 0}, {0}},
    {"a ring on the sheet", RING, {7, 4, 3, 3}, {4, 1, 7, 7}},
    {"a flat ring", RING, {8, 4, 6, 1}, {2, 3, 13, 3}},
    /* one and two rows from its middle x is still 9, as the roots of 80 and 77 are nearest to 9; that of 72 is not */
    {"a ring with only its last column on the sheet", RING, {-9, 4, 9, 9}, {0, 2, 1, 5}},
    /* (15, 8) and (16, 7) */
    {"a ring about the last cell", RING, {16, 8, 1, 1}, {15, 7, 2, 2}},
    /* its top row is 6; in row 8, three above its middle, x is 4 */
    {"a ring clipped to an arc", RING, {6, 11, 5, 5}, {2, 6, 9, 3}},
    /* 4 rows from its middle x is still 5, as 5 times the root of 0.96 is 4.9 */
    {"a ring clipped above and below to two arcs", RING, {8, 4, 5, 20}, {3, 0, 11, 9}},
    /* 8 columns from its middle y is still 2, as 2 times the root of 0.84 is 1.8 */
    {"a ring clipped at its sides to two arcs", RING, {8, 4, 20, 2}, {0, 2, 17, 5}},
    /* 8 columns from its middle y is 2, 4 rows from it x is 5, and 9 and 5 are beyond all sides */
    {"a ring clipped to four arcs", RING, {8, 4, 9, 5}, {0, 0, 17, 9}},

    {"a curve off the sheet", CURVE, {-5, 3, -3, 9, -1, 3, 6}, {0}},
    /* the points are (2, 2), (7, -3) and (12, 2): of row 0 it has (4, 0) and (10, 0) */
    {"a curve whose middle leaves the sheet", CURVE, {2, 2, 7, -8, 12, 2, 1}, {2, 0, 11, 3}},
    {"the same unsplit", CURVE, {2, 2, 7, -8, 12, 2, 0}, {2, 2, 11, 1}},
    /* the points are (-5, 3), (-1, 3) and (3, 3) */
    {"a curve whose first line is off the sheet", CURVE, {-5, 3, -1, 3, 3, 3, 1}, {0, 3, 4, 1}},
    {"a curve whose last line is off the sheet", CURVE, {3, 3, -1, 3, -5, 3, 1}, {0, 3, 4, 1}},
    {"a curve of one cell", CURVE, {9, 1, 9, 1, 9, 1, 6}, {9, 1, 1, 1}},

    {"a cubic off the sheet", CUBIC, {0, 9, 5, 30, 9, 30, 16, 9, 6}, {0}},
    {"a cubic by way of (2, 3)", CUBIC, {0, 0, 0, 4, 4, 4, 4, 0, 1}, {0, 0, 5, 4}},
    /* the points are (12, 1), (18, 3) and (12, 5): of column 16 it has (16, 2) and (16, 4) */
    {"a cubic whose middle leaves the sheet", CUBIC, {12, 1, 20, 1, 20, 5, 12, 5, 1}, {12, 1, 5, 5}},
};

/* on row 0 alone, and on column 0 alone */
static const struct figure on_row[] = {
    /* (5, 0) and (11, 0) */
    {"a ring with only its middle row on the sheet", RING, {8, 0, 3, 3}, {5, 0, 7, 1}},
    /* one column from its middle y is still 3, as the root of 8 is nearest to 3 */
    {"a ring with only its top row on the sheet", RING, {8, 3, 3, 3}, {7, 0, 3, 1}},
    /* y is floor((n + 8) / 16) - 1 at x = n - 16, which is 0 up to x = 7 */
    {"a line that leaves the row", LINE, {-16, -1, 16, 1}, {0, 0, 8, 1}},
    {"a line that crosses the row", LINE, {8, -4, 12, 4}, {10, 0, 1, 1}},
};
static const struct figure on_column[] = {
    {"a ring with only its middle column on the sheet", RING, {0, 4, 3, 3}, {0, 1, 1, 7}},
    {"a line that leaves the column", LINE, {-1, -16, 1, 16}, {0, 0, 1, 8}},
};

/* records for files, near the corners of the sheet and off it */
enum { UPPER_LEFT, LOWER_RIGHT, UPPER_RIGHT, LOWER_LEFT, LEFT, BELOW };
static const struct figure parts[] = {
    [UPPER_LEFT] = {"a line", LINE, {1, 1, 2, 2}, {1, 1, 2, 2}},
    [LOWER_RIGHT] = {"a ring", RING, {13, 6, 1, 1}, {12, 5, 3, 3}},
    [UPPER_RIGHT] = {"a cubic", CUBIC, {16, 0, 16, 0, 15, 2, 15, 2, 0}, {15, 0, 2, 3}},
    [LOWER_LEFT] = {"a curve", CURVE, {2, 6, 2, 7, 2, 8, 1}, {2, 6, 1, 3}},
    [LEFT] = {"a ring left of the sheet", RING, {-10, 3, 9, 9}, {0}},
    [BELOW] = {"a line below it", LINE, {0, 9, 16, 9}, {0}},
};
static const struct {
    const char *example;
    int count, parts[3];
    uint32_t box[4];
} files[] = {
    {"a file of no record", 0, {0}, {0}},
    {"a file with figures in two corners", 2, {UPPER_LEFT, LOWER_RIGHT}, {1, 1, 14, 7}},
    {"the same in the other order", 2, {LOWER_RIGHT, UPPER_LEFT}, {1, 1, 14, 7}},
    {"a file with figures in the other two", 2, {LOWER_LEFT, UPPER_RIGHT}, {2, 0, 15, 9}},
    {"a file with figures in three", 3, {UPPER_LEFT, UPPER_RIGHT, LOWER_LEFT}, {1, 0, 16, 9}},
    {"a file of which only the first is on the sheet", 3, {LOWER_RIGHT, LEFT, BELOW}, {12, 5, 3, 3}},
    {"a file of which only the second is", 3, {LEFT, LOWER_LEFT, BELOW}, {2, 6, 1, 3}},
    {"a file of which only the last is", 3, {LEFT, BELOW, UPPER_RIGHT}, {15, 0, 2, 3}},
    {"a file all off the sheet", 3, {LEFT, BELOW, LEFT}, {0}},
};

static void append_part(int part) {
    same("a record is written", append(parts[part].kind, parts[part].n, sizeof buffer), PW_DONE);
}

static void rectangles_of_files(void) {
    struct sheet s = sheet(WIDTH, HEIGHT, 0);
    for (size_t f = 0; f < sizeof files / sizeof *files; f++) {
        filled = 0;
        for (int i = 0; i < files[f].count; i++)
            append_part(files[f].parts[i]);
        same(files[f].example, file(&s), PW_DONE);
        same(files[f].example, (long long)value, files[f].count);
        told(files[f].example, "drawn", files[f].box);
    }
}

/* a refusal sets no cell and tells no rectangle */
static void refused(const char *example, uint32_t reply, uint32_t number) {
    uint32_t held[4];
    memset(held, NOISE, sizeof held);
    same(example, reply, number);
    same(example, set(), 0);
    told(example, "refused", held);
}

/* sheets that cannot be lent */
static void refuses_sheets(const struct figure *f, way *draw) {
    struct sheet s = sheet(WIDTH, HEIGHT, 1), other = s;
    other.len--;
    refused("a byte too few", draw(&other, f->kind, f->n), PW_SLICE);
    other.len = s.len + 1;
    refused("a byte too many", draw(&other, f->kind, f->n), PW_SLICE);
    other = (struct sheet){0, 0, HEIGHT, 0};
    refused("a width of 0", draw(&other, f->kind, f->n), PW_SIZE);
    other = (struct sheet){(WIDTH - 1) * HEIGHT, WIDTH, HEIGHT, WIDTH - 1};
    refused("a pitch below the width", draw(&other, f->kind, f->n), PW_SIZE);
}

/* numbers beyond their limits, beside others that are on the sheet */
static const struct {
    const char *example;
    way *draw;
    enum kind kind;
    int64_t n[9];
    uint32_t number;
} beyond[] = {
    {"a line to 16,384", in_cells, LINE, {0, 0, 16384, 0}, PW_COORDINATE},
    {"a ring about 16,384", in_cells, RING, {16384, 4, 3, 3}, PW_COORDINATE},
    {"a single axis of 0", in_cells, RING, {8, 4, 0, 3}, PW_RADIUS},
    {"a curve to 16,384", in_cells, CURVE, {0, 0, 4, 4, 8, 16384, 3}, PW_COORDINATE},
    {"a curve with s = 7", in_cells, CURVE, {0, 0, 4, 4, 8, 0, 7}, PW_PIECES},
    {"a cubic to 16,384", in_cells, CUBIC, {0, 0, 4, 4, 8, 4, 8, 16384, 3}, PW_COORDINATE},
    {"a cubic with s = 7", in_cells, CUBIC, {0, 0, 4, 4, 8, 4, 8, 0, 7}, PW_PIECES},
    {"a line in metres to 16,384", in_metres, LINE, {0, 0, 16384, 0}, PW_NO_CELL},
    {"a ring in metres about 16,384", in_metres, RING, {16384, 4, 3, 3}, PW_NO_CELL},
    {"a single length of 0", in_metres, RING, {8, 4, 0, 3}, PW_RADIUS},
};

/* a file whose second record is spoilt in one byte, so that this is refused at this offset */
static void spoilt(const char *example, size_t at, uint8_t byte, uint32_t number, uint64_t offset) {
    struct sheet s = sheet(WIDTH, HEIGHT, 0);
    filled = 0;
    append_part(UPPER_LEFT);
    append_part(LOWER_RIGHT);
    buffer[at] = byte;
    refused(example, file(&s), number);
    same(example, (long long)value, (long long)offset);
}

static void refusals(void) {
    for (int part = UPPER_LEFT; part <= LOWER_LEFT; part++)
        for (size_t w = 0; w < ways_of(parts[part].kind); w++)
            refuses_sheets(&parts[part], ways[w]);
    struct sheet s = sheet(WIDTH, HEIGHT, 0);
    for (size_t i = 0; i < sizeof beyond / sizeof *beyond; i++)
        refused(beyond[i].example, beyond[i].draw(&s, beyond[i].kind, beyond[i].n), beyond[i].number);
    size = 0.0;
    refused("a line by cells of 0.0", in_metres(&s, LINE, parts[UPPER_LEFT].n), PW_SURVEY);
    refused("a ring by cells of 0.0", in_metres(&s, RING, parts[LOWER_RIGHT].n), PW_SURVEY);
    size = 25.0;

    spoilt("a length one too many", 13, 12, PW_SHORT, 13);
    spoilt("a length of 0", 13, 0, PW_KINDLESS, 13);
    spoilt("kind 6", 15, 6, PW_KIND, 15);
    spoilt("kind 2 with a length of 11", 15, 2, PW_LENGTH, 13);
    spoilt("a centre at 16,384 and more", 19, 64, PW_COORDINATE, 18);
    spoilt("an axis of 16,384 and more", 25, 64, PW_RADIUS, 24);
}

void repaints(void) {
    figures(on_sheet, sizeof on_sheet / sizeof *on_sheet, WIDTH, HEIGHT);
    figures(on_row, sizeof on_row / sizeof *on_row, WIDTH, 1);
    figures(on_column, sizeof on_column / sizeof *on_column, 1, HEIGHT);
    rectangles_of_files();
    refusals();
}
