/* rows.c: a second plain C walk of circles and ellipses: row by row, from the top down, each row's cells together, with no memory
 * but the sheet.
 *
 * At distance y from the centre a quadrant's cells are one run of columns: those whose nearest row is y, and the row's own
 * nearest column. With passed(y) the number of columns whose nearest row is y or further out, the run goes from the lesser of
 * passed(y + 1) and nearest(y) to the greater of passed(y) - 1 and nearest(y). For a ring wholly on the sheet a running sum
 * carries each of the two out to the middle row and back in again; one that leaves the sheet takes the run of each of its rows on
 * the sheet by square roots, and cuts it. */
#include <math.h>
#include <string.h>

#include "speed.h"

/* out while the sum is 0 or more: the step is what one column takes off it. The first step is made without a branch: near the
 * sides a row takes none or one, in no order that a processor can guess. */
struct threshold {
    int64_t x, sum, step;
};

static int64_t lesser(int64_t v, int64_t w) {
    return v < w ? v : w;
}

static int64_t greater(int64_t v, int64_t w) {
    return v > w ? v : w;
}

static inline void outwards(struct threshold *t, int64_t bb) {
    int64_t ones = ~(t->sum >> 63); /* all ones where the sum is 0 or more, and else 0 */
    t->sum -= t->step & ones;
    t->step += 8 * bb & ones;
    t->x -= ones;
    while (t->sum >= 0) {
        t->sum -= t->step;
        t->step += 8 * bb;
        t->x++;
    }
}

/* and in again, as long as the column before is past the threshold too */
static inline void inwards(struct threshold *t, int64_t bb) {
    int64_t back = t->step - 8 * bb, ones = ((t->sum + back) >> 63) & -(int64_t)(t->x > 0);
    t->sum += back & ones;
    t->step -= 8 * bb & ones;
    t->x += ones;
    while (t->x > 0 && t->sum + t->step - 8 * bb < 0) {
        t->step -= 8 * bb;
        t->sum += t->step;
        t->x--;
    }
}

/* the run to either side of the centre's column. Most have one cell or two: those take one branch. */
static inline void both(uint8_t *centre, int64_t low, int64_t high) {
    centre[-high] = 1;
    centre[-low] = 1;
    centre[low] = 1;
    centre[high] = 1;
    if (high - low > 1) {
        for (int64_t x = low + 1; x < high; x++)
            centre[x] = 1;
        for (int64_t x = low + 1; x < high; x++)
            centre[-x] = 1;
    }
}

static void whole(struct sheet *s, int32_t cx, int32_t cy, int64_t a, int64_t b) {
    int64_t aa = a * a, bb = b * b, pitch = s->pitch;
    struct threshold passed = {0, 4 * aa * bb - aa * (2 * b - 1) * (2 * b - 1), 4 * bb}, nearest = {0, -bb, 8 * bb};
    uint8_t *centre = s->bytes + (cy - b) * pitch + cx;
    for (int64_t y = b; y > 0; y--, centre += pitch) {
        int64_t low = passed.x;
        outwards(&passed, bb);
        outwards(&nearest, bb);
        both(centre, lesser(low, nearest.x), greater(passed.x - 1, nearest.x));
        passed.sum += 8 * aa * (y - 1);
        nearest.sum += 4 * aa * (2 * y - 1);
    }
    outwards(&nearest, bb);
    both(centre, passed.x, nearest.x);
    for (int64_t y = 1; y <= b; y++) {
        int64_t high = passed.x - 1;
        passed.sum -= 8 * aa * y;
        nearest.sum -= 4 * aa * (2 * y - 1);
        inwards(&passed, bb);
        inwards(&nearest, bb);
        both(centre += pitch, lesser(passed.x, nearest.x), greater(high, nearest.x));
    }
}

/* the greatest whole number whose square is not above v: exact, as v is below 2^52 */
static int64_t root(int64_t v) {
    return (int64_t)sqrt((double)v);
}

static int64_t passed_at(int64_t a, int64_t b, int64_t y) {
    int64_t aa = a * a, bb = b * b;
    if (y == 0)
        return a + 1;
    return y > b ? 0 : root((4 * aa * bb - aa * (2 * y - 1) * (2 * y - 1)) / (4 * bb)) + 1;
}

static int64_t nearest_at(int64_t a, int64_t b, int64_t y) {
    return (root(4 * a * a * (b * b - y * y) / (b * b)) + 1) / 2;
}

/* those of these cells of a row that are on the sheet */
static void cut(struct sheet *s, int64_t left, int64_t right, int64_t y) {
    int64_t last = (int64_t)s->side - 1;
    left = greater(left, 0);
    right = lesser(right, last);
    if (left <= right)
        memset(s->bytes + (size_t)y * s->pitch + left, 1, (size_t)(right - left + 1));
}

static void part(struct sheet *s, int64_t cx, int64_t cy, int64_t a, int64_t b) {
    int64_t last = lesser((int64_t)s->side - 1, cy + b);
    for (int64_t row = greater(0, cy - b); row <= last; row++) {
        int64_t y = row < cy ? cy - row : row - cy, nearest = nearest_at(a, b, y);
        int64_t low = lesser(passed_at(a, b, y + 1), nearest), high = greater(passed_at(a, b, y) - 1, nearest);
        cut(s, cx - high, cx - low, row);
        cut(s, cx + low, cx + high, row);
    }
}

/* with semi-axes from 1 to 16,383 */
static void ring(struct sheet *s, int32_t cx, int32_t cy, int32_t a, int32_t b) {
    int32_t last = (int32_t)s->side - 1;
    if (cx >= a && cx + a <= last && cy >= b && cy + b <= last)
        whole(s, cx, cy, a, b);
    else
        part(s, cx, cy, a, b);
}

int by_rows(struct sheet *s, const struct figure *f) {
    switch (f->kind) {
    case CIRCLE: ring(s, f->x0, f->y0, (int32_t)f->a, (int32_t)f->a); return 1;
    case ELLIPSE: ring(s, f->x0, f->y0, (int32_t)f->a, (int32_t)f->b); return 1;
    case LINE:
    case CURVE:
    case CUBIC:
    case LISTING:
    case FILL: return 0;
    }
    return 0;
}
