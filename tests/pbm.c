/* pbm.c: sheets written as pictures and pictures read onto sheets, byte by byte as worked out by hand; document 02, K2. */
#include <stdio.h>
#include <stdlib.h>
#include <string.h>

#include "examples.h"
#include "pbm.h"
#include "pistonwool.h"

struct page page;

size_t length(struct shape s) { return (size_t)s.pitch * s.height; }

size_t rows_size(struct shape s) { return (size_t)s.height * ((s.width + 7) / 8); }

void lay_specks(void) { memset(&page, SPECKS, sizeof page); }

uint32_t write_page(struct shape s, size_t room) {
    return pw_write_pbm(page.sheet, length(s), s.width, s.height, s.pitch, page.picture, room, &page.bytes);
}

uint32_t read_page(struct shape s, size_t n) {
    return pw_read_pbm(page.sheet, length(s), s.width, s.height, s.pitch, page.picture, n);
}

/* the bit of a cell in these rows */
static uint8_t bit(struct shape s, const uint8_t *rows, uint32_t x, uint32_t y) {
    return rows[(size_t)y * ((s.width + 7) / 8) + x / 8] >> (7 - x % 8) & 1;
}

/* lays a picture of these bytes, reads it, and answers whether all that was lent is what it should be */
static int as_due(struct shape s, const void *bytes, size_t n, uint32_t due, size_t rows, uint32_t *reply) {
    struct page after;
    lay_specks();
    memcpy(page.picture, bytes, n);
    memcpy(&after, &page, sizeof after);
    if (due == PW_DONE)
        for (uint32_t y = 0; y < s.height; y++)
            for (uint32_t x = 0; x < s.width; x++)
                after.sheet[y * s.pitch + x] = bit(s, after.picture + rows, x, y);
    *reply = read_page(s, n);
    return memcmp(&page, &after, sizeof after) == 0;
}

void reads(const char *example, struct shape s, const void *bytes, size_t n, uint32_t reply, size_t rows) {
    uint32_t found;
    int right = as_due(s, bytes, n, reply, rows, &found);
    same(example, found, reply);
    same(reply == PW_DONE ? "its cells are 1 and 0, and all else is as it was" : "a refusal leaves all as it was", right, 1);
}

void cut_off(struct shape s, const void *bytes, size_t header, size_t n) {
    size_t left = 0;
    uint32_t due, reply;
    for (; left < n; left++) {
        due = left < header ? PW_HEADER : PW_PIXELS;
        if (!as_due(s, bytes, left, due, 0, &reply) || reply != due)
            break;
    }
    same("cut off after each byte it is refused, with 13 up to its header's end and then with 14", (long long)left, (long long)n);
}

/* sheets, a letter for each cell, row by row; the header and the rows of their pictures */
static const struct sheet {
    const char *example;
    uint32_t width, height;
    const char *cells, *header;
    uint8_t rows[12];
} sheets[] = {
    {"a cell of 0", 1, 1, ".", "P4\n1 1\n", {0x00}},
    {"a cell of ink", 1, 1, "#", "P4\n1 1\n", {0x80}},
    {"three cells by two", 3, 2, "#.#"
                                 ".#.", "P4\n3 2\n", {0xa0, 0x40}},
    {"two cells by three", 2, 3, ".#"
                                 "#."
                                 "##", "P4\n2 3\n", {0x40, 0x80, 0xc0}},
    {"a column of ten", 1, 10, "#.##...#.#", "P4\n1 10\n", {0x80, 0, 0x80, 0x80, 0, 0, 0, 0x80, 0, 0x80}},
    {"seven cells", 7, 1, "#######", "P4\n7 1\n", {0xfe}},
    {"eight cells", 8, 1, "########", "P4\n8 1\n", {0xff}},
    {"nine cells", 9, 1, "#########", "P4\n9 1\n", {0xff, 0x80}},
    {"eight cells of 0", 8, 2, "................", "P4\n8 2\n", {0, 0}},
    {"each of eight cells by itself", 8, 8, "#......."
                                            ".#......"
                                            "..#....."
                                            "...#...."
                                            "....#..."
                                            ".....#.."
                                            "......#."
                                            ".......#", "P4\n8 8\n", {0x80, 0x40, 0x20, 0x10, 0x08, 0x04, 0x02, 0x01}},
    {"nine cells by two, the last of each row", 9, 2, "........#"
                                                      ".......#.", "P4\n9 2\n", {0x00, 0x80, 0x01, 0x00}},
    {"ten cells, every other", 10, 1, "#.#.#.#.#.", "P4\n10 1\n", {0xaa, 0x80}},
    {"sixteen cells, the first and the last", 16, 1, "#..............#", "P4\n16 1\n", {0x80, 0x01}},
    {"seventeen cells, one in each byte", 17, 2, "#.......#.......#"
                                                 ".......#.......#.", "P4\n17 2\n", {0x80, 0x80, 0x80, 0x01, 0x01, 0x00}},
    /* 11 bits of 1 are ff e0, and 10100110001 is a6 20 */
    {"eleven cells by two", 11, 2, "###########"
                                   "#.#..##...#", "P4\n11 2\n", {0xff, 0xe0, 0xa6, 0x20}},
};

/* lays the sheet within noise, its cells in this ink, or of 0 in each ink in its turn */
static void lay_sheet(const struct sheet *s, struct shape shape, uint8_t ink) {
    lay_specks();
    for (uint32_t i = 0; s->cells[i]; i++)
        page.sheet[i / shape.width * shape.pitch + i % shape.width] = s->cells[i] == '.' ? 0 : ink ? ink : (uint8_t)(i % 255 + 1);
}

/* writes a sheet with this much room more than its picture takes, and less with one that is below */
static void writes(const struct sheet *s, struct shape shape, uint8_t ink, size_t n, int more) {
    struct page due;
    lay_sheet(s, shape, ink);
    memcpy(&due, &page, sizeof due);
    if (more >= 0) {
        memcpy(due.picture, s->header, strlen(s->header));
        memcpy(due.picture + n - rows_size(shape), s->rows, rows_size(shape));
        due.bytes = n;
    }
    same(s->example, write_page(shape, n + (size_t)more), more >= 0 ? PW_DONE : PW_BUFFER);
    same("its byte count", (long long)page.bytes, (long long)due.bytes);
    same("the sheet, the picture's bytes and those after it", memcmp(&page, &due, sizeof due), 0);
}

/* reads its picture: whole, with bytes after it, with each pad bit 1, and cut off after each byte */
static void reads_back(const struct sheet *s, struct shape shape, size_t n) {
    uint8_t picture[LENT];
    size_t header = strlen(s->header), row = (shape.width + 7) / 8;
    memset(picture, '4', sizeof picture);
    memcpy(picture, s->header, header);
    memcpy(picture + header, s->rows, n - header);
    reads(s->example, shape, picture, n, PW_DONE, header);
    reads("with bytes after its picture", shape, picture, n + 9, PW_DONE, header);
    cut_off(shape, picture, header, n);
    for (size_t y = 0; y < shape.height; y++)
        picture[header + y * row + row - 1] |= (uint8_t)((1u << (8 * row - shape.width)) - 1);
    reads("with pad bits of 1", shape, picture, n, PW_DONE, header);
    uint32_t i = 0;
    while (s->cells[i] && page.sheet[i / shape.width * shape.pitch + i % shape.width] == (s->cells[i] == '#'))
        i++;
    same("each cell is as its letter", i, shape.width * shape.height);
}

static void small(void) {
    static const uint8_t inks[] = {1, 128, 0};
    static const uint32_t paddings[] = {0, 1, 7};
    static const int more[] = {-1, 0, 1, 100};
    for (const struct sheet *s = sheets; s < sheets + sizeof sheets / sizeof *sheets; s++)
        for (size_t p = 0; p < sizeof paddings / sizeof *paddings; p++) {
            struct shape shape = {s->width, s->height, s->width + paddings[p]};
            size_t n = strlen(s->header) + rows_size(shape);
            for (size_t i = 0; i < sizeof inks; i++)
                for (size_t m = 0; m < sizeof more / sizeof *more; m++)
                    writes(s, shape, inks[i], n, more[m]);
            reads_back(s, shape, n);
        }
    lay_sheet(&sheets[2], (struct shape){3, 2, 3}, 1);
    same("no room at all is refused with 12", write_page((struct shape){3, 2, 3}, 0), PW_BUFFER);
    same("room for the header alone too", write_page((struct shape){3, 2, 3}, 7), PW_BUFFER);
}

/* sizes of one to four digits: the header, and the bytes of the whole picture */
static const struct {
    uint32_t width, height, pitch;
    const char *header;
    uint64_t bytes;
} sizes[] = {
    {9, 10, 9, "P4\n9 10\n", 8 + 2 * 10},
    {10, 9, 13, "P4\n10 9\n", 8 + 2 * 9},
    {99, 100, 99, "P4\n99 100\n", 10 + 13 * 100},
    {100, 99, 8192, "P4\n100 99\n", 10 + 13 * 99},
    {999, 1000, 1000, "P4\n999 1000\n", 12 + 125 * 1000},
    {1000, 999, 1000, "P4\n1000 999\n", 12 + 125 * 999},
    {1000, 1000, 1001, "P4\n1000 1000\n", 13 + 125 * 1000},
    {1, 4096, 1, "P4\n1 4096\n", 10 + 4096},
    {4096, 1, 4096, "P4\n4096 1\n", 10 + 512},
    {4095, 4096, 4095, "P4\n4095 4096\n", 2097165},
    {4096, 4096, 8192, "P4\n4096 4096\n", 2097165},
};

/* a number from 0 to 255 */
static uint8_t by_chance(void) {
    static uint32_t state = 1;
    return (uint8_t)((state = state * 1664525 + 1013904223) >> 24);
}

/* writes and reads again: whether each cell is then 1 where it was nonzero and 0 elsewhere, and every other byte as it was */
static int round_trip(struct shape s, uint8_t *sheet, uint8_t *again, uint8_t *picture, size_t room, uint64_t *bytes) {
    for (size_t i = 0; i < length(s); i++) {
        sheet[i] = by_chance() & 1 ? 0 : by_chance();
        again[i] = by_chance();
    }
    uint8_t *due = malloc(length(s));
    memcpy(due, again, length(s));
    for (uint32_t y = 0; y < s.height; y++)
        for (uint32_t x = 0; x < s.width; x++)
            due[(size_t)y * s.pitch + x] = sheet[(size_t)y * s.pitch + x] != 0;
    int done = pw_write_pbm(sheet, length(s), s.width, s.height, s.pitch, picture, room, bytes) == PW_DONE &&
               pw_read_pbm(again, length(s), s.width, s.height, s.pitch, picture, *bytes) == PW_DONE &&
               memcmp(again, due, length(s)) == 0;
    free(due);
    return done;
}

static void large(void) {
    enum { MOST = 4096 * 8192 };
    uint8_t *sheet = malloc(MOST), *again = malloc(MOST), *picture = malloc(2097165 + 1);
    char said[64];
    for (size_t i = 0; i < sizeof sizes / sizeof *sizes; i++) {
        struct shape s = {sizes[i].width, sizes[i].height, sizes[i].pitch};
        uint64_t bytes = 99, n = sizes[i].bytes, enough = 13 + s.height * ((s.width + 7) / 8);
        snprintf(said, sizeof said, "%u by %u, in a byte less than it takes", s.width, s.height);
        same(said, pw_write_pbm(sheet, length(s), s.width, s.height, s.pitch, picture, n - 1, &bytes), PW_BUFFER);
        same("is not counted", (long long)bytes, 99);
        picture[n] = SPECKS;
        same("written and read", round_trip(s, sheet, again, picture, n, &bytes), 1);
        same("its byte count", (long long)bytes, (long long)n);
        same("its header", memcmp(picture, sizes[i].header, strlen(sizes[i].header)), 0);
        same("the byte after it stays", picture[n], SPECKS);
        same("what the header calls enough", n <= enough && (s.width < 1000 || s.height < 1000 || n == enough), 1);
    }
    /* the widths about which code that takes many cells at once changes its way */
    for (uint32_t width = 1; width <= 4096; width += width < 140 ? 1 : width < 4090 ? 79 : 1)
        for (uint32_t padding = 0; padding <= 3; padding += 3) {
            struct shape s = {width, 3, width + padding};
            uint64_t bytes = 0;
            snprintf(said, sizeof said, "%u by 3 with %u bytes of padding, written and read", width, padding);
            same(said, round_trip(s, sheet, again, picture, 13 + rows_size(s), &bytes), 1);
        }
    free(sheet);
    free(again);
    free(picture);
}

void pictures(void) {
    small();
    large();
    pbm_headers();
    pbm_refusals();
}
