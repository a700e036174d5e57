/* ground.c: what the fills meet: a boundary of ink 1 on a sheet of ink 0, and where the fill starts. */
#include <string.h>

#include "speed.h"

enum { CORRIDOR = 3, ACROSS = 12, SHUT = 30, WALLED = 32, STARTS = 16 };

static void shut(struct sheet *s, uint32_t x, uint32_t y) {
    s->bytes[(size_t)y * s->pitch + x] = 1;
}

static void serpentine(struct sheet *s) {
    const uint32_t step = CORRIDOR + 1;
    for (uint32_t y = CORRIDOR; y < s->side; y += step)
        for (uint32_t x = 0; x < s->side; x++)
            if (y / step % 2 ? x >= CORRIDOR : x + CORRIDOR < s->side)
                shut(s, x, y);
}

/* lines between two cells of the sheet */
static void lines(struct sheet *s) {
    int32_t last = (int32_t)s->side - 1;
    for (int i = 0; i < ACROSS; i++) {
        struct figure line = {.kind = LINE, .x0 = between(0, last), .y0 = between(0, last)};
        line.x1 = between(0, last);
        line.y1 = between(0, last);
        walk(s, &line);
    }
}

static void noise(struct sheet *s) {
    for (uint32_t y = 0; y < s->side; y++)
        for (uint32_t x = 0; x < s->side; x++)
            if (between(1, 100) <= SHUT)
                shut(s, x, y);
}

/* the walls about the cells in the middle of the sheet */
static void square(struct sheet *s) {
    uint32_t first = (s->side - WALLED) / 2 - 1, last = first + WALLED + 1;
    for (uint32_t i = first; i <= last; i++) {
        shut(s, i, first);
        shut(s, i, last);
        shut(s, first, i);
        shut(s, last, i);
    }
}

size_t territory(struct sheet *s, const struct figure *fill) {
    size_t len = (size_t)s->pitch * s->side, cells = 0;
    memcpy(s->bytes, s->fresh, len);
    walk(s, fill);
    for (size_t i = 0; i < len; i++)
        cells += s->bytes[i] == 2;
    return cells;
}

/* of some random starts the one with the largest territory, and how many cells that has */
static struct figure largest(struct sheet *s, size_t *most) {
    int32_t last = (int32_t)s->side - 1;
    struct figure best = {.kind = FILL};
    *most = 0;
    for (int i = 0; i < STARTS; i++) {
        struct figure fill = {.kind = FILL, .x0 = between(0, last), .y0 = between(0, last)};
        size_t cells = territory(s, &fill);
        if (cells > *most) {
            *most = cells;
            best = fill;
        }
    }
    return best;
}

/* lays lines or noise at random, again until one territory has more than half of the sheet's cells: that one is filled */
static struct figure lay_random(struct sheet *s, void (*boundary)(struct sheet *)) {
    size_t len = (size_t)s->pitch * s->side, most;
    struct figure fill;
    do {
        memset(s->bytes, 0, len);
        boundary(s);
        memcpy(s->fresh, s->bytes, len);
        fill = largest(s, &most);
    } while (2 * most <= (size_t)s->side * s->side);
    return fill;
}

struct figure lay(struct sheet *s, enum ground ground) {
    size_t len = (size_t)s->pitch * s->side;
    int32_t middle = (int32_t)s->side / 2;
    if (ground == LINES || ground == NOISE)
        return lay_random(s, ground == LINES ? lines : noise);
    memset(s->bytes, 0, len);
    if (ground == SERPENTINE)
        serpentine(s);
    if (ground == SQUARE)
        square(s);
    memcpy(s->fresh, s->bytes, len);
    /* from an end of the serpentine, and else from the middle */
    if (ground == SERPENTINE)
        return (struct figure){.kind = FILL};
    return (struct figure){.kind = FILL, .x0 = middle, .y0 = middle};
}
