/* walk.c: what a C programmer would write without us: Bresenham's line, the midpoint circle and ellipse that write eight arcs in
 * turn (an ellipse: four), a fill by runs with a stack. */
#include <stdio.h>
#include <stdlib.h>
#include <string.h>

#include "speed.h"

static int on(const struct sheet *s, int32_t x, int32_t y) {
    return (uint32_t)x < s->side && (uint32_t)y < s->side;
}

static void mark(struct sheet *s, int32_t x, int32_t y) {
    if (on(s, x, y))
        s->bytes[(size_t)y * s->pitch + (size_t)x] = 1;
}

static void line(struct sheet *s, int32_t x0, int32_t y0, int32_t x1, int32_t y1) {
    int32_t w = abs(x1 - x0), h = abs(y1 - y0), sx = x0 < x1 ? 1 : -1, sy = y0 < y1 ? 1 : -1;
    int32_t most = w > h ? w : h, least = w > h ? h : w, error = most / 2;
    if (on(s, x0, y0) && on(s, x1, y1)) {
        ptrdiff_t along = w > h ? sx : sy * (ptrdiff_t)s->pitch, across = w > h ? sy * (ptrdiff_t)s->pitch : sx;
        uint8_t *at = s->bytes + (size_t)y0 * s->pitch + (size_t)x0;
        for (int32_t n = 0; n <= most; n++) {
            *at = 1;
            at += along;
            error -= least;
            if (error < 0) {
                error += most;
                at += across;
            }
        }
        return;
    }
    for (int32_t n = 0; n <= most; n++) {
        mark(s, x0, y0);
        if (w > h)
            x0 += sx;
        else
            y0 += sy;
        error -= least;
        if (error < 0) {
            error += most;
            if (w > h)
                y0 += sy;
            else
                x0 += sx;
        }
    }
}

static void list(struct sheet *s, int32_t x0, int32_t y0, int32_t x1, int32_t y1) {
    int32_t w = abs(x1 - x0), h = abs(y1 - y0), sx = x0 < x1 ? 1 : -1, sy = y0 < y1 ? 1 : -1;
    int32_t most = w > h ? w : h, least = w > h ? h : w, error = most / 2;
    int32_t ax = w > h ? sx : 0, ay = w > h ? 0 : sy, cx = w > h ? 0 : sx, cy = w > h ? sy : 0;
    for (int32_t n = 0; n <= most; n++) {
        s->xs[n] = x0;
        s->ys[n] = y0;
        x0 += ax;
        y0 += ay;
        error -= least;
        if (error < 0) {
            error += most;
            x0 += cx;
            y0 += cy;
        }
    }
}

/* the centre's cell of a ring that lies wholly on the sheet, and else nothing */
static uint8_t *centre_of(const struct sheet *s, int32_t cx, int32_t cy, int32_t a, int32_t b) {
    if (on(s, cx - a, cy - b) && on(s, cx + a, cy + b))
        return s->bytes + (size_t)cy * s->pitch + (size_t)cx;
    return NULL;
}

/* the two rows y above and below the centre, x to either side of it: without a test where the ring is on the sheet */
static inline void mirror(struct sheet *s, uint8_t *centre, int32_t cx, int32_t cy, int32_t x, int32_t y) {
    if (centre) {
        ptrdiff_t down = y * (ptrdiff_t)s->pitch;
        centre[down + x] = 1;
        centre[down - x] = 1;
        centre[-down + x] = 1;
        centre[-down - x] = 1;
        return;
    }
    mark(s, cx + x, cy + y);
    mark(s, cx - x, cy + y);
    mark(s, cx + x, cy - y);
    mark(s, cx - x, cy - y);
}

static void circle(struct sheet *s, int32_t cx, int32_t cy, int32_t r) {
    uint8_t *centre = centre_of(s, cx, cy, r, r);
    int32_t x = 0, y = r, error = 1 - r;
    while (x <= y) {
        mirror(s, centre, cx, cy, x, y);
        mirror(s, centre, cx, cy, y, x);
        x++;
        if (error < 0) {
            error += 2 * x + 1;
        } else {
            y--;
            error += 2 * (x - y) + 1;
        }
    }
}

static void ellipse(struct sheet *s, int32_t cx, int32_t cy, int64_t a, int64_t b) {
    uint8_t *centre = centre_of(s, cx, cy, (int32_t)a, (int32_t)b);
    int64_t aa = a * a, bb = b * b, x = 0, y = b, px = 0, py = 2 * aa * y;
    int64_t p = bb - aa * b + aa / 4;
    while (px < py) {
        mirror(s, centre, cx, cy, (int32_t)x, (int32_t)y);
        x++;
        px += 2 * bb;
        if (p < 0) {
            p += bb + px;
        } else {
            y--;
            py -= 2 * aa;
            p += bb + px - py;
        }
    }
    p = bb * (x * x + x) + bb / 4 + aa * (y - 1) * (y - 1) - aa * bb;
    while (y >= 0) {
        mirror(s, centre, cx, cy, (int32_t)x, (int32_t)y);
        y--;
        py -= 2 * aa;
        if (p > 0) {
            p += aa - py;
        } else {
            x++;
            px += 2 * bb;
            p += aa - py + px;
        }
    }
}

/* the whole number nearest to sum / 2^bits, a half upwards */
static int32_t rounded(int64_t sum, uint32_t bits) {
    return (int32_t)((2 * sum + ((int64_t)1 << bits)) >> (bits + 1));
}

static int32_t blend(int32_t p0, int32_t p1, int32_t p2, int64_t i, uint32_t s) {
    int64_t j = (1 << s) - i;
    return rounded(j * j * p0 + 2 * i * j * p1 + i * i * p2, 2 * s);
}

static int32_t blend_cubic(int32_t p0, int32_t p1, int32_t p2, int32_t p3, int64_t i, uint32_t s) {
    int64_t j = (1 << s) - i;
    return rounded(j * j * j * p0 + 3 * i * j * j * p1 + 3 * i * i * j * p2 + i * i * i * p3, 3 * s);
}

void joined(const struct figure *c, uint32_t i, int32_t *x, int32_t *y) {
    if (c->kind == CUBIC) {
        *x = blend_cubic(c->x0, c->x1, c->x2, c->x3, i, c->s);
        *y = blend_cubic(c->y0, c->y1, c->y2, c->y3, i, c->s);
    } else {
        *x = blend(c->x0, c->x1, c->x2, i, c->s);
        *y = blend(c->y0, c->y1, c->y2, i, c->s);
    }
}

static void curve(struct sheet *s, const struct figure *c) {
    int32_t x0 = c->x0, y0 = c->y0, x1, y1;
    for (uint32_t i = 1; i <= 1u << c->s; i++) {
        joined(c, i, &x1, &y1);
        line(s, x0, y0, x1, y1);
        x0 = x1;
        y0 = y1;
    }
}

static struct cell {
    int32_t x, y;
} *stack;
static size_t height, room;

static void push(int32_t x, int32_t y) {
    if (height == room) {
        room = 2 * room + 1024;
        stack = realloc(stack, room * sizeof *stack);
        if (!stack) {
            fprintf(stderr, "speed: no room for the stack\n");
            exit(1);
        }
    }
    stack[height++] = (struct cell){x, y};
}

/* one cell of each open run above or below the cells from left to right */
static void push_runs(const struct sheet *s, int32_t left, int32_t right, int32_t y) {
    if ((uint32_t)y >= s->side)
        return;
    const uint8_t *row = s->bytes + (size_t)y * s->pitch;
    for (int32_t x = left; x <= right; x++)
        if (row[x] == 0 && (x == left || row[x - 1] != 0))
            push(x, y);
}

static void fill(struct sheet *s, int32_t x, int32_t y) {
    push(x, y);
    while (height > 0) {
        struct cell from = stack[--height];
        uint8_t *row = s->bytes + (size_t)from.y * s->pitch;
        if (row[from.x] != 0)
            continue;
        int32_t left = from.x, right = from.x, last = (int32_t)s->side - 1;
        while (left > 0 && row[left - 1] == 0)
            left--;
        while (right < last && row[right + 1] == 0)
            right++;
        memset(row + left, 2, (size_t)(right - left + 1));
        push_runs(s, left, right, from.y - 1);
        push_runs(s, left, right, from.y + 1);
    }
}

int walk(struct sheet *s, const struct figure *f) {
    switch (f->kind) {
    case LINE: line(s, f->x0, f->y0, f->x1, f->y1); break;
    case CIRCLE: circle(s, f->x0, f->y0, (int32_t)f->a); break;
    case ELLIPSE: ellipse(s, f->x0, f->y0, f->a, f->b); break;
    case CURVE:
    case CUBIC: curve(s, f); break;
    case LISTING: list(s, f->x0, f->y0, f->x1, f->y1); break;
    case FILL: fill(s, f->x0, f->y0); break;
    }
    return 1;
}
