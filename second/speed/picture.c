/* picture.c: sheets half full of random ink, written as raw PBM and read again, by the library and by its rivals. */
#include <ctype.h>
#include <stdio.h>
#include <stdlib.h>
#include <string.h>

#include "pistonwool.h"
#include "table.h"

enum { LARGEST = 4096, SMALLEST = 64, CELLS = LARGEST * LARGEST, MOST = CELLS / (SMALLEST * SMALLEST) };

static size_t length(const struct sheet *s) {
    return (size_t)s->pitch * s->side;
}

static void stop(size_t way, const char *words) {
    fprintf(stderr, "speed: way %zu %s\n", way, words);
    exit(1);
}

static int write_picture(struct sheet *s, const struct figure *f) {
    static uint8_t room[PICTURE];
    uint64_t bytes;
    (void)f;
    done(pw_write_pbm(s->bytes, length(s), s->side, s->side, s->pitch, room, sizeof room, &bytes));
    s->picture = room;
    s->pictured = bytes;
    return 1;
}

static int read_picture(struct sheet *s, const struct figure *f) {
    (void)f;
    done(pw_read_pbm(s->bytes, length(s), s->side, s->side, s->pitch, s->picture, s->pictured));
    return 1;
}

/* up to eight cells as a byte, the first as its highest bit */
static inline uint8_t packed(const uint8_t *cells, uint32_t n) {
    unsigned byte = 0;
    for (uint32_t i = 0; i < 8; i++)
        byte = byte << 1 | (i < n && cells[i] != 0);
    return (uint8_t)byte;
}

static inline void unpack(unsigned byte, uint8_t *cells, uint32_t n) {
    for (uint32_t i = 0; i < n; i++)
        cells[i] = byte >> (7 - i) & 1;
}

/* the side in a variable of its own, which no byte that is written can be a part of, and a loop of whole bytes alone: of these
 * the compiler makes code that takes many cells at a time */
static int write_plainly(struct sheet *s, const struct figure *f) {
    static uint8_t room[PICTURE];
    uint32_t side = s->side;
    uint8_t *to = room + snprintf((char *)room, sizeof room, "P4\n%u %u\n", side, side);
    (void)f;
    for (uint32_t y = 0; y < side; y++) {
        const uint8_t *row = s->bytes + (size_t)y * s->pitch;
        uint32_t x = 0;
        for (; x + 8 <= side; x += 8)
            *to++ = packed(row + x, 8);
        if (x < side)
            *to++ = packed(row + x, side - x);
    }
    s->picture = room;
    s->pictured = (size_t)(to - room);
    return 1;
}

/* the number after blanks and comments from a place on; answers the place after it */
static size_t number(const struct sheet *s, size_t at, uint32_t *value) {
    const uint8_t *picture = s->picture;
    while (at < s->pictured && (isspace(picture[at]) || picture[at] == '#'))
        if (picture[at++] == '#')
            while (at < s->pictured && picture[at] != '\n' && picture[at] != '\r')
                at++;
    *value = 0;
    for (; at < s->pictured && isdigit(picture[at]) && *value <= LARGEST; at++)
        *value = 10 * *value + picture[at] - '0';
    return at;
}

/* where the rows begin, after the one blank that ends the header, or 0 where this is no picture of the sheet's size */
static size_t rows_of(const struct sheet *s) {
    uint32_t width, height;
    if (s->pictured < 2 || memcmp(s->picture, "P4", 2) != 0)
        return 0;
    size_t at = number(s, number(s, 2, &width), &height);
    if (at == s->pictured || !isspace(s->picture[at]) || width != s->side || height != s->side)
        return 0;
    return s->pictured - at - 1 < (size_t)(width + 7) / 8 * height ? 0 : at + 1;
}

static int read_plainly(struct sheet *s, const struct figure *f) {
    uint32_t side = s->side;
    size_t at = rows_of(s);
    (void)f;
    if (at == 0)
        stop(IN_C, "does not know the header");
    const uint8_t *from = s->picture + at;
    for (uint32_t y = 0; y < side; y++) {
        uint8_t *row = s->bytes + (size_t)y * s->pitch;
        uint32_t x = 0;
        for (; x + 8 <= side; x += 8)
            unpack(*from++, row + x, 8);
        if (x < side)
            unpack(*from++, row + x, side - x);
    }
    return 1;
}

/* stops where a way does not write the picture that was laid */
static void same_pictures(struct sheet *s, const struct way *ways, const uint8_t *laid, size_t bytes) {
    for (size_t w = 0; w < WAYS; w++)
        if (ways[w].draw(s, NULL) && (s->pictured != bytes || memcmp(s->picture, laid, bytes) != 0))
            stop(w, "writes another picture than was laid");
}

/* what a way is to read of a cell: 1 for ink and else 0, or as OpenCV has them */
static uint8_t due(const struct sheet *s, size_t way, size_t cell) {
    uint8_t opposite = s->fresh[cell];
#ifdef IMGCODECS
    if (way == BY_OPENCV)
        return opposite;
#endif
    (void)way;
    return opposite == 0;
}

/* stops where a way does not read each cell as it was laid */
static void same_cells(struct sheet *s, const struct way *ways) {
    for (size_t w = 0; w < WAYS; w++) {
        memset(s->bytes, 2, length(s));
        if (!ways[w].draw(s, NULL))
            continue;
        for (size_t i = 0; i < length(s); i++)
            if (s->bytes[i] != due(s, w, i))
                stop(w, "reads other cells than were laid");
    }
}

/* sets half of the cells, at random, and their bits in the picture, of which it answers the bytes; fresh is then the sheet as
 * OpenCV has it. No ink is above 127, since libnetpbm takes that for none. */
static size_t lay_half(struct sheet *s, uint8_t *picture) {
    size_t bytes = (size_t)sprintf((char *)picture, "P4\n%u %u\n", s->side, s->side);
    for (uint32_t y = 0; y < s->side; y++)
        for (uint32_t x = 0; x < s->side; x++) {
            size_t cell = (size_t)y * s->pitch + x;
            int set = between(0, 1);
            s->bytes[cell] = set ? (uint8_t)between(1, 127) : 0;
            s->fresh[cell] = set ? 0 : 255;
            if (x % 8 == 0)
                picture[bytes++] = 0;
            picture[bytes - 1] |= (uint8_t)(set << (7 - x % 8));
        }
    return bytes;
}

/* a sheet that is written, and its picture read, so often that all its cells are as many as the largest has */
static void both_rows(uint32_t side, struct way *writing, struct way *reading) {
    static uint8_t bytes[CELLS], fresh[CELLS], laid[PICTURE];
    static const struct figure none[MOST];
    struct sheet s = {.bytes = bytes, .side = side, .pitch = side, .fresh = fresh};
    size_t n = lay_half(&s, laid);
    for (size_t w = 0; w < WAYS; w++)
        writing[w].figures = reading[w].figures = CELLS / ((size_t)side * side);
    same_pictures(&s, writing, laid, n);
    row("writing a picture", "cell", &s, writing, none, CELLS);
    s.picture = laid;
    s.pictured = n;
    same_cells(&s, reading);
    row("reading a picture", "cell", &s, reading, none, CELLS);
}

void picture_rows(void) {
    struct way writing[WAYS], reading[WAYS];
    for (size_t w = 0; w < WAYS; w++)
        writing[w] = reading[w] = (struct way){.draw = unable};
    writing[OURS].draw = write_picture;
    reading[OURS].draw = read_picture;
    writing[IN_C].draw = write_plainly;
    reading[IN_C].draw = read_plainly;
#ifdef IMGCODECS
    writing[BY_OPENCV].draw = opencv_write;
    reading[BY_OPENCV].draw = opencv_read;
#endif
#ifdef NETPBM
    netpbm_begin();
    writing[BY_NETPBM].draw = netpbm_write;
    reading[BY_NETPBM].draw = netpbm_read;
#endif
    both_rows(SMALLEST, writing, reading);
    both_rows(512, writing, reading);
    both_rows(LARGEST, writing, reading);
}
