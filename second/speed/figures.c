/* figures.c: random figures, the same in every run. */
#include <math.h>

#include "speed.h"

static uint64_t state = 1;

int32_t between(int32_t least, int32_t most) {
    state = state * 6364136223846793005u + 1442695040888963407u;
    return least + (int32_t)((state >> 33) % (uint64_t)(most - least + 1));
}

struct figure some(enum kind kind, int32_t side) {
    struct figure f = {.kind = kind, .s = 6};
    int32_t last = side - 1;
    if (kind == CIRCLE || kind == ELLIPSE) {
        f.a = (uint32_t)between(side / 16, side / 2 - 1);
        f.b = kind == CIRCLE ? f.a : (uint32_t)between(side / 16, side / 2 - 1);
        f.x0 = between((int32_t)f.a, last - (int32_t)f.a);
        f.y0 = between((int32_t)f.b, last - (int32_t)f.b);
        return f;
    }
    f.x0 = between(0, last);
    f.y0 = between(0, last);
    f.x1 = between(0, last);
    f.y1 = between(0, last);
    f.x2 = between(0, last);
    f.y2 = between(0, last);
    f.x3 = between(0, last);
    f.y3 = between(0, last);
    return f;
}

struct figure far_line(int32_t side) {
    struct figure f = {.kind = LINE, .x0 = between(-8000, 8000), .y0 = between(-8000, 8000)};
    f.x1 = 2 * between(0, side - 1) - f.x0;
    f.y1 = 2 * between(0, side - 1) - f.y0;
    return f;
}

static int in_limits(int32_t coordinate) {
    return coordinate >= -16384 && coordinate <= 16383;
}

/* a cell of the sheet lies on it at a random angle */
struct figure far_ring(enum kind kind, int32_t side) {
    struct figure f = {.kind = kind};
    do {
        double angle = between(0, 65535) * (2 * acos(-1) / 65536);
        f.a = (uint32_t)between(1000, 16383);
        f.b = kind == CIRCLE ? f.a : (uint32_t)between(1000, 16383);
        f.x0 = between(0, side - 1) + (int32_t)lround(f.a * cos(angle));
        f.y0 = between(0, side - 1) + (int32_t)lround(f.b * sin(angle));
    } while (!in_limits(f.x0) || !in_limits(f.y0));
    return f;
}

struct figure any(enum kind kind) {
    struct figure f = {.kind = kind};
    int32_t *coordinates[] = {&f.x0, &f.y0, &f.x1, &f.y1, &f.x2, &f.y2, &f.x3, &f.y3};
    for (size_t i = 0; i < sizeof coordinates / sizeof *coordinates; i++)
        *coordinates[i] = between(-16384, 16383);
    f.a = (uint32_t)between(1, 16383);
    f.b = (uint32_t)between(1, 16383);
    f.s = (uint32_t)between(0, 6);
    return f;
}
