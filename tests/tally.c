/* tally.c: the list that is kept beside a sheet, by numbers worked out from the rules by hand; document 02, K14. */
#include <stdio.h>
#include <string.h>

#include "examples.h"
#include "pistonwool.h"
#include "tally.h"

struct lent lent;
uint32_t *const tally = lent.list + 1;

struct call call(enum form form, uint32_t pitch, uint8_t ink, const int64_t n[9]) {
    struct call c = {form, (size_t)pitch * HEIGHT, WIDTH, HEIGHT, pitch, HEIGHT, CELLS, ink, 25.0, {0}};
    memcpy(c.n, n, sizeof c.n);
    return c;
}

/* the middle of a cell, by cells of this size from (1000, 2000) on */
static const double east = 1000.0, north = 2000.0;
static double in_east(const struct call *c, int i) { return east + c->size * ((double)c->n[i] + 0.5); }
static double in_north(const struct call *c, int i) { return north + c->size * ((double)c->n[i] + 0.5); }

uint32_t tallied(const struct call *c) {
    uint8_t *b = lent.bytes;
    uint32_t w = c->width, h = c->height, p = c->pitch, *box = lent.box, *cells = &lent.cells;
    size_t len = c->len, m = c->places;
    const int64_t *n = c->n;
    double z = c->size;
    switch (c->form) {
    case AFRESH: return pw_tally(b, len, w, h, p, tally, m);
    case LINE: return pw_line_tallied(b, len, w, h, p, tally, m, c->ink, n[0], n[1], n[2], n[3], cells, box);
    case RING: return pw_ellipse_tallied(b, len, w, h, p, tally, m, c->ink, n[0], n[1], n[2], n[3], box);
    case CURVE:
        return pw_curve_tallied(b, len, w, h, p, tally, m, c->ink, n[0], n[1], n[2], n[3], n[4], n[5], n[6], box);
    case CUBIC:
        return pw_cubic_tallied(b, len, w, h, p, tally, m, c->ink, n[0], n[1], n[2], n[3], n[4], n[5], n[6], n[7], n[8], box);
    case RECORDS: return pw_file_tallied(b, len, w, h, p, tally, m, buffer, filled, &lent.value, box);
    case LINE_METRES:
        return pw_line_metres_tallied(b, len, w, h, p, tally, m, c->ink, east, north, z, in_east(c, 0), in_north(c, 1),
                                      in_east(c, 2), in_north(c, 3), cells, box);
    case RING_METRES:
        return pw_ellipse_metres_tallied(b, len, w, h, p, tally, m, c->ink, east, north, z, in_east(c, 0), in_north(c, 1),
                                         z * n[2], z * n[3], box);
    default: return pw_fill_tallied(b, len, w, h, p, tally, m, n[0], n[1], n[2], c->ink, lent.work, c->room, cells);
    }
}

/* makes the same call without a list, on the same bytes */
static uint32_t plain(const struct call *c) {
    uint8_t *b = lent.bytes;
    uint32_t w = c->width, h = c->height, p = c->pitch, *box = lent.box, *cells = &lent.cells;
    size_t len = c->len;
    const int64_t *n = c->n;
    double z = c->size;
    switch (c->form) {
    case LINE: return pw_line(b, len, w, h, p, c->ink, n[0], n[1], n[2], n[3], cells, box);
    case RING: return pw_ellipse(b, len, w, h, p, c->ink, n[0], n[1], n[2], n[3], box);
    case CURVE: return pw_curve(b, len, w, h, p, c->ink, n[0], n[1], n[2], n[3], n[4], n[5], n[6], box);
    case CUBIC: return pw_cubic(b, len, w, h, p, c->ink, n[0], n[1], n[2], n[3], n[4], n[5], n[6], n[7], n[8], box);
    case RECORDS: return pw_file(b, len, w, h, p, buffer, filled, &lent.value, box);
    case LINE_METRES:
        return pw_line_metres(b, len, w, h, p, c->ink, east, north, z, in_east(c, 0), in_north(c, 1), in_east(c, 2),
                              in_north(c, 3), cells, box);
    case RING_METRES:
        return pw_ellipse_metres(b, len, w, h, p, c->ink, east, north, z, in_east(c, 0), in_north(c, 1), z * n[2], z * n[3],
                                 box);
    default: return pw_fill(b, len, w, h, p, n[0], n[1], n[2], c->ink, lent.work, c->room, cells);
    }
}

void lay(uint32_t pitch, uint8_t ink) {
    memset(&lent, NOISE, sizeof lent);
    for (uint32_t y = 0; y < HEIGHT; y++) {
        memset(lent.bytes + y * pitch, ink, WIDTH);
        tally[y] = ink ? WIDTH : 0;
    }
}

/* holds the list to these numbers and to what is counted afresh, and the places beside it to their noise */
static void holds(const char *example, const struct call *c, const uint32_t rows[HEIGHT]) {
    uint32_t afresh[HEIGHT];
    char said[160];
    memset(afresh, NOISE, sizeof afresh);
    int y = 0;
    while (y < HEIGHT - 1 && tally[y] == rows[y])
        y++;
    snprintf(said, sizeof said, "%s: the numbers of the rows, first that of row %d", example, y);
    same(said, tally[y], rows[y]);
    same("the places beside the list stay", lent.list[0] == 0xaaaaaaaa && lent.list[HEIGHT + 1] == 0xaaaaaaaa, 1);
    same("counting afresh", pw_tally(lent.bytes, c->len, c->width, c->height, c->pitch, afresh, HEIGHT), PW_DONE);
    same("gives the same list", memcmp(afresh, tally, sizeof afresh), 0);
}

/* makes a call that is done, with the list right before it and with none: the replies, all bytes and what is told are the same */
static void done(const char *example, const struct call *c) {
    struct lent before, with;
    memcpy(&before, &lent, sizeof lent);
    same(example, tallied(c), PW_DONE);
    memcpy(&with, &lent, sizeof lent);
    memcpy(&lent, &before, sizeof lent);
    same(example, plain(c), PW_DONE);
    same("the bytes are those without a list", memcmp(with.bytes, lent.bytes, sizeof lent.bytes), 0);
    same("and so is the rectangle", memcmp(with.box, lent.box, sizeof lent.box), 0);
    same("and so is what is told beside it", with.cells == lent.cells && with.value == lent.value, 1);
    memcpy(&lent, &with, sizeof lent);
}

/* figures on columns 0 to 16 and rows 0 to 8: their rectangle, and how many of their cells each row has; {0} is none */
static const struct figure {
    const char *example;
    enum form form;
    int64_t n[9];
    uint32_t box[4], rows[HEIGHT];
} figures[] = {
    {"a line above the sheet", LINE, {0, -5, 16, -1}, {0}, {0}},
    {"a line below it", LINE, {0, 9, 16, 9}, {0}, {0}},
    {"a line left of it", LINE, {-9, 0, -1, 8}, {0}, {0}},
    {"a line right of it", LINE, {17, 8, 40, 0}, {0}, {0}},
    {"a line of the first cell", LINE, {0, 0, 0, 0}, {0, 0, 1, 1}, {1}},
    {"a line of the last cell", LINE, {16, 8, 20, 12}, {16, 8, 1, 1}, {0, 0, 0, 0, 0, 0, 0, 0, 1}},
    {"a line of one row", LINE, {9, 6, 2, 6}, {2, 6, 8, 1}, {0, 0, 0, 0, 0, 0, 8}},
    {"a line through the first row", LINE, {-16384, 0, 16383, 0}, {0, 0, 17, 1}, {17}},
    {"a line through the last row", LINE, {0, 8, 16, 8}, {0, 8, 17, 1}, {0, 0, 0, 0, 0, 0, 0, 0, 17}},
    {"a line through a column", LINE, {16, -16384, 16, 16383}, {16, 0, 1, 9}, {1, 1, 1, 1, 1, 1, 1, 1, 1}},
    /* y is 1 + floor((n + 1) / 2) at x = n - 4: (0, 3), and then two cells in each row up to (10, 8) */
    {"a line clipped at its left and below", LINE, {-4, 1, 20, 13}, {0, 3, 11, 6}, {0, 0, 0, 1, 2, 2, 2, 2, 2}},

    {"a ring right of the sheet", RING, {27, 3, 10, 4}, {0}, {0}},
    {"a ring all round it", RING, {8, 4, 100, 100}, {0}, {0}},
    {"both axes 0", RING, {1, 2, 0, 0}, {1, 2, 1, 1}, {0, 0, 1}},
    /* 0 and 1 column from its middle y is 3, two from it y is 2; one row from its middle x is 3 */
    {"a ring on the sheet", RING, {7, 4, 3, 3}, {4, 1, 7, 7}, {0, 3, 2, 2, 2, 2, 2, 3}},
    /* up to 5 columns from its middle y is 1, as the root of 1 - 25/36 is above a half */
    {"a flat ring", RING, {8, 4, 6, 1}, {2, 3, 13, 3}, {0, 0, 0, 11, 2, 11}},
    /* 8 columns from its middle y is still 2, as 2 times the root of 0.84 is 1.8: no cell between the two arcs */
    {"a ring clipped at its sides to two arcs", RING, {8, 4, 20, 2}, {0, 2, 17, 5}, {0, 0, 17, 0, 0, 0, 17}},
    /* one and two rows from its middle x is still 9; the next is -1 */
    {"a ring with only its last column on the sheet", RING, {-9, 4, 9, 9}, {0, 2, 1, 5}, {0, 0, 1, 1, 1, 1, 1}},

    {"a curve off the sheet", CURVE, {-5, 3, -3, 9, -1, 3, 6}, {0}, {0}},
    /* the points are (2, 2), (7, -3) and (12, 2) */
    {"a curve whose middle leaves the sheet", CURVE, {2, 2, 7, -8, 12, 2, 1}, {2, 0, 11, 3}, {2, 2, 2}},
    {"a curve of one cell", CURVE, {9, 1, 9, 1, 9, 1, 6}, {9, 1, 1, 1}, {0, 1}},

    {"a cubic off the sheet", CUBIC, {0, 9, 5, 30, 9, 30, 16, 9, 6}, {0}, {0}},
    /* (0, 0), (1, 1), (1, 2), (2, 3), (3, 2), (3, 1), (4, 0) */
    {"a cubic by way of (2, 3)", CUBIC, {0, 0, 0, 4, 4, 4, 4, 0, 1}, {0, 0, 5, 4}, {2, 2, 2, 1}},
};

/* the file of one figure in this ink */
static void record(const struct figure *f, uint8_t ink) {
    filled = 0;
    same("a record is written", append(f->form, f->n, sizeof buffer), PW_DONE);
    buffer[4] = ink;
}

/* a figure by one form, on cells that all have one ink; its numbers rise, fall or stay by what is drawn over what */
static void drawn(const struct figure *f, enum form form, uint32_t pitch, uint8_t before, uint8_t ink) {
    struct call c = call(form, pitch, ink, f->n);
    uint32_t rows[HEIGHT];
    for (int y = 0; y < HEIGHT; y++)
        rows[y] = before ? WIDTH - (ink ? 0 : f->rows[y]) : ink ? f->rows[y] : 0;
    if (form == RECORDS)
        record(f, ink);
    lay(pitch, before);
    done(f->example, &c);
    holds(f->example, &c, rows);
    same(f->example, memcmp(lent.box, f->box, sizeof f->box), 0);
}

static void drawings(void) {
    static const uint8_t inks[][2] = {{0, 1}, {0, 0}, {255, 0}, {128, 255}};
    for (size_t i = 0; i < sizeof figures / sizeof *figures; i++)
        for (size_t k = 0; k < sizeof inks / sizeof *inks; k++) {
            const struct figure *f = &figures[i];
            drawn(f, f->form, PITCH, inks[k][0], inks[k][1]);
            drawn(f, RECORDS, WIDTH, inks[k][0], inks[k][1]);
            if (f->form == LINE || f->form == RING)
                drawn(f, f->form == LINE ? LINE_METRES : RING_METRES, PITCH, inks[k][0], inks[k][1]);
        }
}

/* one after another on one sheet: the list that a call leaves is the list of the next */
static const struct {
    const char *example;
    enum form form;
    uint8_t ink;
    int64_t n[9];
    uint32_t cells, rows[HEIGHT];
} in_turn[] = {
    {"a line in row 6", LINE, 128, {2, 6, 9, 6}, 8, {0, 0, 0, 0, 0, 0, 8}},
    {"a column that has a cell of it", LINE, 255, {5, 4, 5, 8}, 5, {0, 0, 0, 0, 1, 1, 8, 1, 1}},
    {"a part of the row in ink 0", LINE, 0, {5, 6, 16, 6}, 12, {0, 0, 0, 0, 1, 1, 3, 1, 1}},
    {"the rest of the column too", LINE_METRES, 0, {5, 16, 5, 0}, 9, {0, 0, 0, 0, 0, 0, 3}},
    {"what is left of the row", LINE, 0, {2, 6, 4, 6}, 3, {0}},
    /* a ring tells no number of cells, so the last stays */
    {"a ring", RING, 1, {7, 4, 3, 3}, 3, {0, 3, 2, 2, 2, 2, 2, 3}},
    /* within it 3 cells in rows 2 and 6, 5 in the three between */
    {"a fill within it", FILL, 2, {7, 4, 1}, 21, {0, 3, 5, 7, 7, 7, 5, 3}},
    {"a fill about it", FILL, 255, {0, 0, 1}, 116, {17, 17, 17, 17, 17, 17, 17, 17, 17}},
    {"a fill within it in ink 0", FILL, 0, {8, 5, 1}, 21, {17, 17, 14, 12, 12, 12, 14, 17, 17}},
    {"a fill that starts on it", FILL, 0, {7, 1, 1}, 0, {17, 17, 14, 12, 12, 12, 14, 17, 17}},
    {"a fill of all in ink 0 but what is 255", FILL, 0, {7, 4, 255}, 37, {17, 14, 12, 10, 10, 10, 12, 14, 17}},
    {"a fill of all", FILL, 7, {16, 8, 8}, 153, {17, 17, 17, 17, 17, 17, 17, 17, 17}},
    {"a fill of all in ink 0", FILL, 0, {16, 8, 8}, 153, {0}},
};

static void turns(void) {
    lay(PITCH, 0);
    lent.cells = 0;
    for (size_t i = 0; i < sizeof in_turn / sizeof *in_turn; i++) {
        struct call c = call(in_turn[i].form, PITCH, in_turn[i].ink, in_turn[i].n);
        done(in_turn[i].example, &c);
        holds(in_turn[i].example, &c, in_turn[i].rows);
        same("and its number of cells", lent.cells, in_turn[i].cells);
    }
    /* a file whose second record takes back what its first sets: rows 1 to 7 have the ring, and row 4 loses its two cells */
    static const struct call file = {RECORDS, PITCH * HEIGHT, WIDTH, HEIGHT, PITCH, HEIGHT, CELLS, 1, 25.0, {0}};
    static const uint32_t rows[HEIGHT] = {0, 3, 2, 2, 0, 2, 2, 3};
    record(&(struct figure){"", RING, {7, 4, 3, 3}, {0}, {0}}, 1);
    append(LINE, (const int64_t[9]){0, 4, 16, 4}, sizeof buffer);
    buffer[13 + 4] = 0;
    lay(PITCH, 0);
    done("a file of two records", &file);
    holds("a file of two records", &file, rows);
    same("and its number of records", (long long)lent.value, 2);
    filled = 0;
    done("a file of no record", &file);
    holds("a file of no record", &file, rows);
    same("and its number of records", (long long)lent.value, 0);
}

void tallies(void) {
    drawings();
    turns();
    tally_refusals();
    tally_counts();
}
