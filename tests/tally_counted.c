/* tally_counted.c: sheets of the widths about which code that counts many cells at once changes its way, counted afresh and by a
 * line with a list; document 02, K14. */
#include <stdio.h>
#include <string.h>

#include "examples.h"
#include "pistonwool.h"
#include "tally.h"

/* rows of each pattern; the number of the last is what the loop below counts */
enum row { ALL, NONE, FIRST, LAST, ALL_BUT_LAST, EVERY_OTHER, RANDOM, ROWS };
enum { WIDEST = 4096, MOST_PADDING = 13 };
static uint8_t sheet[ROWS * (WIDEST + MOST_PADDING)], before[sizeof sheet];

static int is_set(enum row row, uint32_t x, uint32_t width) {
    static uint32_t state = 1;
    switch (row) {
    case ALL: return 1;
    case NONE: return 0;
    case FIRST: return x == 0;
    case LAST: return x == width - 1;
    case ALL_BUT_LAST: return x < width - 1;
    case EVERY_OTHER: return x % 2 == 0;
    default: return (state = state * 1664525 + 1013904223) >> 31;
    }
}

/* the nonzero cells of a row, one by one */
static uint32_t counted(const uint8_t *cells, uint32_t width) {
    uint32_t n = 0;
    for (uint32_t x = 0; x < width; x++)
        if (cells[x] != 0)
            n++;
    return n;
}

/* lays the rows with this value in the cells that are set, or of 0 with each value in its turn, and noise in the padding; rows are
 * then the numbers that are right */
static void lay_rows(uint32_t width, uint32_t pitch, uint8_t value, uint32_t rows[ROWS]) {
    memset(sheet, NOISE, sizeof sheet);
    for (uint32_t y = 0; y < ROWS; y++)
        for (uint32_t x = 0; x < width; x++) {
            uint8_t ink = value ? value : (uint8_t)(x % 255 + 1);
            sheet[y * pitch + x] = is_set((enum row)y, x, width) ? ink : 0;
        }
    const uint32_t right[] = {width, 0, 1, 1, width - 1, (width + 1) / 2, counted(sheet + RANDOM * pitch, width)};
    memcpy(rows, right, sizeof right);
    memcpy(before, sheet, sizeof sheet);
}

/* one width and padding: how many lists are not what they should be, or replies or bytes */
static int wrong(uint32_t width, uint32_t padding, uint8_t value) {
    uint32_t rows[ROWS], list[ROWS], pitch = width + padding, cells, box[4];
    size_t len = (size_t)pitch * ROWS;
    int32_t last = (int32_t)width - 1;
    int n = 0;
    lay_rows(width, pitch, value, rows);
    memset(list, NOISE, sizeof list);
    n += pw_tally(sheet, len, width, ROWS, pitch, list, ROWS) != PW_DONE;
    n += memcmp(list, rows, sizeof list) != 0;

    /* a list that is one off is refused, in the first row, a middle one and the last */
    for (int y = 0; y < ROWS; y += RANDOM / 2) {
        list[y]++;
        n += pw_line_tallied(sheet, len, width, ROWS, pitch, list, ROWS, 0, 0, 0, last, 0, &cells, box) != PW_TALLY;
        n += list[y]-- != rows[y] + 1;
    }
    n += memcmp(sheet, before, sizeof sheet) != 0 || memcmp(list, rows, sizeof list) != 0;

    /* the row of which all are set loses all its cells, and then the row of none gets them */
    n += pw_line_tallied(sheet, len, width, ROWS, pitch, list, ROWS, 0, 0, ALL, last, ALL, &cells, box) != PW_DONE;
    rows[ALL] = 0;
    n += memcmp(list, rows, sizeof list) != 0;
    n += pw_line_tallied(sheet, len, width, ROWS, pitch, list, ROWS, 255, 0, NONE, last, NONE, &cells, box) != PW_DONE;
    rows[NONE] = width;
    n += memcmp(list, rows, sizeof list) != 0;
    return n;
}

static void width(uint32_t width) {
    static const uint32_t paddings[] = {0, 1, MOST_PADDING};
    static const uint8_t values[] = {1, 128, 255, 0};
    char said[64];
    for (size_t p = 0; p < sizeof paddings / sizeof *paddings; p++) {
        int n = 0;
        for (size_t v = 0; v < sizeof values; v++)
            n += wrong(width, paddings[p], values[v]);
        snprintf(said, sizeof said, "a sheet %u wide with %u of padding is counted", width, paddings[p]);
        same(said, n, 0);
    }
}

/* a row with one cell set, wherever that is */
static void one_cell(uint32_t width) {
    uint32_t number, n = 0;
    memset(sheet, 0, width);
    for (uint32_t x = 0; x < width; x++) {
        sheet[x] = x % 2 ? 128 : 1;
        n += pw_tally(sheet, width, width, 1, width, &number, 1) == PW_DONE && number == 1;
        sheet[x] = 0;
    }
    same("one cell is counted wherever it is", n, width);
}

/* the largest sheet, with as much padding as there can be: each row has as many cells as its own number says, and a line through
 * the last column gives each one more */
static void largest(void) {
    enum { SIDE = 4096, FAR = 8192 };
    static uint8_t bytes[FAR * SIDE];
    static uint32_t list[SIDE];
    uint32_t counted = 0, drawn = 0, cells, box[4], last = SIDE - 1;
    memset(bytes, NOISE, sizeof bytes);
    for (size_t y = 0; y < SIDE; y++)
        memset(bytes + y * FAR + y, 0, SIDE - y);
    same("the largest sheet is counted", pw_tally(bytes, sizeof bytes, SIDE, SIDE, FAR, list, SIDE), PW_DONE);
    for (uint32_t y = 0; y < SIDE; y++)
        counted += list[y] == y;
    same("row by row", counted, SIDE);
    same("a line on it keeps the list",
         pw_line_tallied(bytes, sizeof bytes, SIDE, SIDE, FAR, list, SIDE, 1, last, 0, last, last, &cells, box), PW_DONE);
    for (uint32_t y = 0; y < SIDE; y++)
        drawn += list[y] == y + 1;
    same("row by row", drawn, SIDE);
    list[last]--;
    same("a list that is one off in its last row is refused",
         pw_line_tallied(bytes, sizeof bytes, SIDE, SIDE, FAR, list, SIDE, 1, last, 0, last, last, &cells, box), PW_TALLY);
}

void tally_counts(void) {
    static const struct {
        uint32_t least, most;
    } widths[] = {{1, 40}, {63, 65}, {127, 130}, {239, 257}, {511, 513}, {4095, 4096}};
    for (size_t i = 0; i < sizeof widths / sizeof *widths; i++)
        for (uint32_t w = widths[i].least; w <= widths[i].most; w++)
            width(w);
    one_cell(40);
    one_cell(257);
    one_cell(4096);
    largest();
}
