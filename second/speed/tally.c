/* tally.c: sheets half full of random ink, of which the nonzero cells of each row are counted, by the library and by its rivals. */
#include <stdio.h>
#include <stdlib.h>
#include <string.h>

#include "pistonwool.h"
#include "table.h"

enum { LARGEST = 4096, SMALLEST = 64, COUNTED = LARGEST * LARGEST, MOST = COUNTED / (SMALLEST * SMALLEST) };

/* each way leaves its list in the sheet's work slice */
static int afresh(struct sheet *s, const struct figure *f) {
    (void)f;
    done(pw_tally(s->bytes, (size_t)s->pitch * s->side, s->side, s->side, s->pitch, s->work, s->side));
    return 1;
}

static int afresh_plainly(struct sheet *s, const struct figure *f) {
    (void)f;
    for (uint32_t y = 0; y < s->side; y++) {
        const uint8_t *row = s->bytes + (size_t)y * s->pitch;
        uint32_t n = 0;
        for (uint32_t x = 0; x < s->side; x++)
            n += row[x] != 0;
        s->work[y] = n;
    }
    return 1;
}

/* stops where a way counts something else than was laid */
static void same_tallies(struct sheet *s, const struct way *ways, const uint32_t *laid) {
    for (size_t w = 0; w < WAYS; w++) {
        memset(s->work, 255, s->side * sizeof *s->work);
        if (ways[w].draw(s, NULL) && memcmp(s->work, laid, s->side * sizeof *laid) != 0) {
            fprintf(stderr, "speed: way %zu counts something else than was laid\n", w);
            exit(1);
        }
    }
}

/* sets half of the cells, at random; laid is then how many in each row */
static void lay_half(struct sheet *s, uint32_t *laid) {
    for (uint32_t y = 0; y < s->side; y++) {
        laid[y] = 0;
        for (uint32_t x = 0; x < s->side; x++) {
            int set = between(0, 1);
            s->bytes[(size_t)y * s->pitch + x] = set ? (uint8_t)between(1, 255) : 0;
            laid[y] += (uint32_t)set;
        }
    }
}

/* a sheet that is counted so often that all its cells are as many as the largest has */
static void tally_row(uint32_t side, struct way *ways) {
    static uint8_t bytes[LARGEST * LARGEST];
    static uint32_t list[LARGEST], laid[LARGEST];
    static const struct figure none[MOST];
    struct sheet s = {.bytes = bytes, .side = side, .pitch = side, .work = list};
    lay_half(&s, laid);
    same_tallies(&s, ways, laid);
    for (size_t w = 0; w < WAYS; w++)
        ways[w].figures = COUNTED / ((size_t)side * side);
    row("counting afresh", "cell", &s, ways, none, COUNTED);
}

void tally_rows(void) {
    struct way ways[WAYS];
    for (size_t w = 0; w < WAYS; w++)
        ways[w] = (struct way){.draw = unable};
    ways[OURS].draw = afresh;
    ways[IN_C].draw = afresh_plainly;
#ifdef OPENCV
    ways[BY_OPENCV].draw = opencv_tally;
#endif
    tally_row(SMALLEST, ways);
    tally_row(512, ways);
    tally_row(LARGEST, ways);
}
