/* speed.c: the proved library beside its rivals: the same figures in one run, best of several rounds, as a table. */
#include <stdio.h>
#include <stdlib.h>
#include <string.h>
#include <time.h>

#include "pistonwool.h"
#include "table.h"

/* the last way that a ratio is told to: C by rows or, where it is there, OpenCV */
#ifdef OPENCV
enum { BESIDE = BY_OPENCV };
#else
enum { BESIDE = IN_C_BY_ROWS };
#endif
enum { ROUNDS = 15, MOST = 20000, CELLS = 300000, RECORDS = 200, FAR = 500, COPIED = 1 << 26 };
/* so many records that no processor has learnt their order by the last round */
enum { WRITTEN = 100000 };

static size_t length(const struct sheet *s) {
    return (size_t)s->pitch * s->side;
}

void done(uint32_t reply) {
    if (reply != PW_DONE) {
        fprintf(stderr, "speed: a figure was refused with %u\n", reply);
        exit(1);
    }
}

/* the rectangle that the library told last; it outlives the call, so that nothing of its cost can be left out */
static uint32_t box[4];

static int pistonwool(struct sheet *s, const struct figure *f) {
    size_t len = length(s);
    uint32_t side = s->side, pitch = s->pitch, cells, reply = 0;
    switch (f->kind) {
    case LINE: reply = pw_line(s->bytes, len, side, side, pitch, 1, f->x0, f->y0, f->x1, f->y1, &cells, box); break;
    case CIRCLE: reply = pw_ellipse(s->bytes, len, side, side, pitch, 1, f->x0, f->y0, f->a, f->a, box); break;
    case ELLIPSE: reply = pw_ellipse(s->bytes, len, side, side, pitch, 1, f->x0, f->y0, f->a, f->b, box); break;
    case CURVE:
        reply = pw_curve(s->bytes, len, side, side, pitch, 1, f->x0, f->y0, f->x1, f->y1, f->x2, f->y2, f->s, box);
        break;
    case CUBIC:
        reply = pw_cubic(s->bytes, len, side, side, pitch, 1, f->x0, f->y0, f->x1, f->y1, f->x2, f->y2, f->x3, f->y3, f->s,
                         box);
        break;
    case LISTING: reply = pw_list(s->xs, s->places, s->ys, s->places, f->x0, f->y0, f->x1, f->y1, &cells); break;
    case FILL:
        reply = pw_fill(s->bytes, len, side, side, pitch, f->x0, f->y0, 1, 2, s->work, (size_t)side * side, &cells);
        break;
    }
    done(reply);
    return 1;
}

/* the file, with room for one byte too many, and what C writes in its place */
static uint8_t file[WRITTEN * 22 + 1], other[sizeof file];
static uint64_t file_length, other_length;

/* appends the figure's record to the file */
static void record(const struct figure *f) {
    uint64_t *filled = &file_length;
    uint32_t reply = PW_KIND;
    switch (f->kind) {
    case LINE: reply = pw_write_line(file, sizeof file, filled, 1, f->x0, f->y0, f->x1, f->y1); break;
    case CIRCLE: reply = pw_write_circle(file, sizeof file, filled, 1, f->x0, f->y0, f->a); break;
    case ELLIPSE: reply = pw_write_ellipse(file, sizeof file, filled, 1, f->x0, f->y0, f->a, f->b); break;
    case CURVE:
        reply = pw_write_curve(file, sizeof file, filled, 1, f->x0, f->y0, f->x1, f->y1, f->x2, f->y2, f->s);
        break;
    case CUBIC:
        reply = pw_write_cubic(file, sizeof file, filled, 1, f->x0, f->y0, f->x1, f->y1, f->x2, f->y2, f->x3, f->y3, f->s);
        break;
    case LISTING:
    case FILL: break;
    }
    done(reply);
}

/* the whole file at once, whatever the figure */
static int whole_file(struct sheet *s, const struct figure *f) {
    uint64_t records;
    (void)f;
    done(pw_file(s->bytes, length(s), s->side, s->side, s->pitch, file, file_length, &records, box));
    return 1;
}

/* how many cells the figure has on the sheet, which is left clear */
static size_t cells_of(struct sheet *s, const struct figure *f) {
    size_t len = length(s), cells = 0;
    struct figure drawn = *f;
    if (drawn.kind == LISTING)
        drawn.kind = LINE;
    memset(s->bytes, 0, len);
    pistonwool(s, &drawn);
    for (size_t i = 0; i < len; i++)
        cells += s->bytes[i];
    memset(s->bytes, 0, len);
    return cells;
}

static double now(void) {
    struct timespec t;
    clock_gettime(CLOCK_MONOTONIC, &t);
    return (double)t.tv_sec * 1e9 + (double)t.tv_nsec;
}

/* nanoseconds for one pass over fills. Each begins on a fresh copy of the sheet, and the copying is not timed; after it a small
 * territory on a large sheet is no longer in the cache, for all ways alike. */
static double fill_pass(struct sheet *s, const struct way *way, const struct figure *fills) {
    double sum = 0;
    for (size_t i = 0; i < way->figures; i++) {
        memcpy(s->bytes, s->fresh, length(s));
        double begun = now();
        if (!way->draw(s, &fills[i]))
            return -1;
        sum += now() - begun;
    }
    return sum;
}

/* nanoseconds for one pass over the figures, or below 0 where this way does not know their kind */
static double pass(struct sheet *s, const struct way *way, const struct figure *figures) {
    if (figures->kind == FILL)
        return fill_pass(s, way, figures);
    double begun = now();
    for (size_t i = 0; i < way->figures; i++)
        if (!way->draw(s, &figures[i]))
            return -1;
    return now() - begun;
}

static void told(double value, int digits) {
    if (value < 0)
        printf(" | -");
    else
        printf(" | %.*f", digits, value);
}

void row(const char *name, const char *unit, struct sheet *s, struct way *ways, const struct figure *figures, size_t units) {
    for (size_t w = 0; w < WAYS; w++)
        ways[w].best = -1;
    for (int round = 0; round < ROUNDS; round++)
        for (size_t v = 0; v < WAYS; v++) {
            size_t w = round % 2 ? WAYS - 1 - v : v; /* none always comes after the same one's use of the cache */
            double ns = pass(s, &ways[w], figures);
            if (ns >= 0 && (ways[w].best < 0 || ns < ways[w].best))
                ways[w].best = ns;
        }
    printf("| %s, ns a %s | ", name, unit);
    if (s)
        printf("%u²", s->side);
    else
        printf("-");
    if (s && s->pitch != s->side)
        printf(", pitch %u", s->pitch);
    for (size_t w = 0; w < WAYS; w++) {
        double ns = ways[w].best < 0 ? -1 : ways[w].best / (double)units;
        told(ns, ns < 0.1 ? 3 : 2); /* a time below a tenth has a digit more */
    }
    for (size_t w = IN_C; w <= BESIDE; w++)
        told(ways[w].best < 0 ? -1 : ways[OURS].best / ways[w].best, 2);
    printf(" |\n");
    fflush(stdout);
}

static struct figure figures[WRITTEN];

/* stops where the library and C by rows do not mark the same cells */
static void same_rings(struct sheet *s, const struct figure *rings, size_t count) {
    struct sheet other = *s;
    other.bytes = s->fresh;
    for (size_t i = 0; i < count; i++) {
        memset(s->bytes, 0, length(s));
        memset(other.bytes, 0, length(s));
        pistonwool(s, &rings[i]);
        by_rows(&other, &rings[i]);
        if (memcmp(s->bytes, other.bytes, length(s)) != 0) {
            fprintf(stderr, "speed: C by rows marks other cells of the ring %u by %u about (%d, %d)\n", rings[i].a, rings[i].b,
                    rings[i].x0, rings[i].y0);
            exit(1);
        }
    }
}

/* figures of one kind */
static void kind_row(enum kind kind, struct sheet *s, struct way *ways) {
    static const char *const names[] = {[LINE] = "lines", [CIRCLE] = "circles", [ELLIPSE] = "ellipses",
        [CURVE] = "curves", [CUBIC] = "cubics", [LISTING] = "listing"};
    size_t count = 0, cells = 0;
    while (count < MOST && cells < CELLS) {
        figures[count] = some(kind, (int32_t)s->side);
        cells += cells_of(s, &figures[count++]);
    }
    if (kind == CIRCLE || kind == ELLIPSE)
        same_rings(s, figures, count);
    for (size_t w = 0; w < WAYS; w++)
        ways[w].figures = count;
    row(names[kind], "cell", s, ways, figures, cells);
}

/* stops where a way does not fill the cells that the others do */
static void same_cells(struct sheet *s, const struct way *ways, const struct figure *fill, size_t cells) {
    for (size_t w = 0; w < WAYS; w++) {
        size_t set = 0;
        memcpy(s->bytes, s->fresh, length(s));
        if (!ways[w].draw(s, fill))
            continue;
        for (size_t i = 0; i < length(s); i++)
            set += s->bytes[i] == 2;
        if (set != cells) {
            fprintf(stderr, "speed: a way fills %zu cells in the place of %zu\n", set, cells);
            exit(1);
        }
    }
}

/* one fill on one kind of ground, again and again, but with no more than so many bytes copied */
static void fill_row(enum ground ground, struct sheet *s, struct way *ways) {
    static const char *const names[] = {[OPEN] = "fill of an open sheet", [SERPENTINE] = "fill of a serpentine",
        [LINES] = "fill between lines", [NOISE] = "fill in 30 % noise", [SQUARE] = "fill of a square of 32"};
    struct figure fill = lay(s, ground);
    size_t cells = territory(s, &fill), often = CELLS / cells + 1, most = COPIED / length(s) + 1;
    same_cells(s, ways, &fill, cells);
    often = often < most ? often : most;
    for (size_t i = 0; i < often; i++)
        figures[i] = fill;
    for (size_t w = 0; w < WAYS; w++)
        ways[w].figures = often;
    row(names[ground], "cell", s, ways, figures, cells * often);
}

/* the square only on the largest sheet, which a fill of few cells is not to pay for */
static void fill_rows(struct sheet *s, struct way *ways) {
    for (enum ground ground = OPEN; ground <= (s->side == 4096 ? SQUARE : NOISE); ground++)
        fill_row(ground, s, ways);
}

static void far_rows(struct sheet *s, struct way *ways) {
    for (size_t w = 0; w < WAYS; w++)
        ways[w].figures = FAR;
    for (size_t i = 0; i < FAR; i++)
        figures[i] = far_line((int32_t)s->side);
    row("lines with far ends", "line", s, ways, figures, FAR);
    for (size_t i = 0; i < FAR; i++)
        figures[i] = far_ring(i % 2 ? ELLIPSE : CIRCLE, (int32_t)s->side);
    same_rings(s, figures, FAR);
    row("rings with far centres", "ring", s, ways, figures, FAR);
}

static void rows(struct sheet *s, struct way *ways) {
    if (s->pitch != s->side) {
        kind_row(LINE, s, ways);
        fill_row(OPEN, s, ways);
        return;
    }
    for (enum kind kind = LINE; kind <= LISTING; kind++)
        kind_row(kind, s, ways);
    far_rows(s, ways);

    size_t cells = 0;
    file_length = 0;
    for (size_t i = 0; i < RECORDS; i++) {
        figures[i] = some((enum kind)between(LINE, CUBIC), (int32_t)s->side);
        cells += cells_of(s, &figures[i]);
        record(&figures[i]);
    }
    for (size_t w = 0; w < WAYS; w++)
        ways[w].figures = RECORDS;
    row("a file's figures one by one", "cell", s, ways, figures, cells);
    ways[OURS] = (struct way){.draw = whole_file, .figures = 1};
    row("the file", "cell", s, ways, figures, cells);
    ways[OURS].draw = pistonwool;
    fill_rows(s, ways);
}

/* ways of writing and of reading all records at once; those that write take the figures from this one on */
static int write_all(struct sheet *none, const struct figure *f) {
    (void)none;
    file_length = 0;
    for (size_t i = 0; i < WRITTEN; i++)
        record(&f[i]);
    return 1;
}

static int write_all_plainly(struct sheet *none, const struct figure *f) {
    (void)none;
    other_length = 0;
    for (size_t i = 0; i < WRITTEN; i++)
        done(plain_append(other, sizeof other, &other_length, &f[i]));
    return 1;
}

/* reads so many bytes of the file, by the library or by C, and stops where that answers something else than these */
static void reads(int plainly, size_t n, uint32_t due, uint64_t due_value) {
    uint8_t cell = 0;
    uint64_t value = 0;
    uint32_t reply = plainly ? plain_read(file, n, &value) : pw_file(&cell, 1, 1, 1, 1, file, n, &value, box);
    if (reply != due || value != due_value) {
        fprintf(stderr, "speed: %s reads a file as %u, %llu\n", plainly ? "C" : "ours", reply, (unsigned long long)value);
        exit(1);
    }
}

/* with a byte too many at its end the file is read whole and then refused there, so that nothing is drawn */
static int read_all(struct sheet *none, const struct figure *f) {
    (void)none, (void)f;
    reads(0, file_length + 1, PW_SHORT, file_length);
    return 1;
}

static int read_all_plainly(struct sheet *none, const struct figure *f) {
    (void)none, (void)f;
    reads(1, file_length + 1, PW_SHORT, file_length);
    return 1;
}

int unable(struct sheet *none, const struct figure *f) {
    (void)none, (void)f;
    return 0;
}

/* stops where the library and C do not write the same bytes, or do not read all records in them */
static void same_records(void) {
    write_all(NULL, figures);
    write_all_plainly(NULL, figures);
    if (file_length != other_length || memcmp(file, other, file_length) != 0) {
        fprintf(stderr, "speed: C writes other records than the library\n");
        exit(1);
    }
    reads(0, file_length, PW_DONE, WRITTEN);
    reads(1, file_length, PW_DONE, WRITTEN);
}

/* records of all kinds, which need no sheet */
static void record_rows(void) {
    struct way ways[WAYS];
    for (size_t w = 0; w < WAYS; w++)
        ways[w] = (struct way){.draw = unable, .figures = 1};
    for (size_t i = 0; i < WRITTEN; i++)
        figures[i] = any((enum kind)between(LINE, CUBIC));
    same_records();
    ways[OURS].draw = write_all;
    ways[IN_C].draw = write_all_plainly;
    row("writing a record", "record", NULL, ways, figures, WRITTEN);
    ways[OURS].draw = read_all;
    ways[IN_C].draw = read_all_plainly;
    row("reading a record", "record", NULL, ways, figures, WRITTEN);
}

int main(void) {
    /* the last: rows that do not all begin in the same part of the cache */
    static const struct {
        uint32_t side, pitch;
    } sheets[] = {{64, 64}, {512, 512}, {4096, 4096}, {4096, 4160}};
    struct way ways[WAYS] = {[OURS].draw = pistonwool, [IN_C].draw = walk, [IN_C_BY_ROWS].draw = by_rows};
    printf("| figures | sheet | Pistonwool | C | C by rows");
#ifdef OPENCV
    ways[BY_OPENCV].draw = opencv;
    printf(" | OpenCV");
#endif
#ifdef LIBGD
    ways[BY_LIBGD].draw = libgd;
    printf(" | libgd");
#endif
#ifdef NETPBM
    ways[BY_NETPBM].draw = unable;
    printf(" | Netpbm");
#endif
    printf(" | Pistonwool / C | / C by rows");
#ifdef OPENCV
    printf(" | / OpenCV");
#endif
    printf(" |\n|---|---");
    for (size_t i = 0; i < WAYS + BESIDE; i++)
        printf("|---");
    printf("|\n");
    for (size_t i = 0; i < sizeof sheets / sizeof *sheets; i++) {
        uint32_t side = sheets[i].side, pitch = sheets[i].pitch;
        struct sheet s = {.bytes = calloc(side, pitch), .side = side, .pitch = pitch, .places = side};
        s.xs = calloc(side, sizeof *s.xs);
        s.ys = calloc(side, sizeof *s.ys);
        s.work = calloc((size_t)side * side, sizeof *s.work);
        s.fresh = malloc(length(&s));
        if (!s.bytes || !s.xs || !s.ys || !s.work || !s.fresh)
            return 1;
#ifdef LIBGD
        libgd_begin(side);
#endif
        rows(&s, ways);
#ifdef LIBGD
        libgd_end();
#endif
        free(s.bytes);
        free(s.xs);
        free(s.ys);
        free(s.work);
        free(s.fresh);
    }
    record_rows();
    rescue_row();
    /* each after those that were there before it, so that their random figures stay what they were */
    tally_rows();
    picture_rows();
    return 0;
}
