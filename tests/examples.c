/* examples.c: the checked examples of document 01 that are not starred, those of rings with axes of 0, of cubics, of writing
 * records, of rescuing them, of rectangles to repaint, of tallies and of pictures, each by its words through the library; the
 * last line counts. */
#include <stdio.h>
#include <string.h>

#include "examples.h"
#include "pistonwool.h"

enum { WIDTH = 16, HEIGHT = 8 };
static uint8_t sheet[WIDTH * HEIGHT];
static uint32_t box[4];
static int passed, failed;

void same(const char *example, long long found, long long expected) {
    if (found == expected) {
        passed++;
    } else {
        failed++;
        printf("tests/examples: %s: %lld and not %lld\n", example, found, expected);
    }
}

/* a sheet of zeros */
static void clear(void) { memset(sheet, 0, sizeof sheet); }

/* how many cells are set, and whether (x, y) is one of them */
static int set(void) {
    int n = 0;
    for (size_t i = 0; i < sizeof sheet; i++)
        n += sheet[i] != 0;
    return n;
}

static int at(int x, int y) { return sheet[y * WIDTH + x]; }

/* the cell of a position, as the ring of radius one cell about it shows, whose rightmost cell is one further: so -1 is seen too */
static int column(double east, double size, double x) {
    clear();
    uint32_t reply = pw_ellipse_metres(sheet, sizeof sheet, WIDTH, HEIGHT, WIDTH, 1, east, 0.0, size, x, 2.0 * size, size,
                                       size, box);
    if (reply != PW_DONE)
        return -100;
    for (int c = WIDTH - 1; c >= 0; c--)
        if (at(c, 2))
            return c - 1;
    return -100;
}

/* a file of so many bytes: its reply; what it tells goes to value */
static uint64_t value;
static uint32_t file(const char *bytes, size_t n) {
    clear();
    value = 99;
    return pw_file(sheet, sizeof sheet, WIDTH, HEIGHT, WIDTH, (const uint8_t *)bytes, n, &value, box);
}

/* a cubic on a sheet of zeros, by its control points; the same with these reversed */
static uint32_t cubic(const int32_t *p, uint32_t s) {
    clear();
    return pw_cubic(sheet, sizeof sheet, WIDTH, HEIGHT, WIDTH, 1, p[0], p[1], p[2], p[3], p[4], p[5], p[6], p[7], s,
                    box);
}

static uint32_t backwards(const int32_t *p, uint32_t s) {
    int32_t back[] = {p[6], p[7], p[4], p[5], p[2], p[3], p[0], p[1]};
    return cubic(back, s);
}

/* document 02, K13 */
static void cubics(void) {
    static const int32_t arch[] = {0, 0, 0, 4, 4, 4, 4, 0};
    same("a cubic of two pieces is drawn", cubic(arch, 1), PW_DONE);
    same("it has 7 cells, by way of (2,3)", set() == 7 && at(0, 0) && at(1, 1) && at(1, 2) && at(2, 3) && at(3, 2) && at(3, 1) && at(4, 0), 1);
    same("an s of 7 is refused with 4", cubic(arch, 7), PW_PIECES);
    same("and nothing set", set(), 0);

    /* 32ht^3 - 48ht^2 + 18ht - h, as source document 001 prints it, for h = 3 and moved by 3: at t = 0, 1/4, .. it is 0, 6, 3, 0, 6 */
    static const int32_t printed[] = {0, 0, 18, 2, -12, 4, 6, 6};
    same("the cubic that source document 001 prints is drawn", cubic(printed, 2), PW_DONE);
    same("its points are where it says", at(0, 0) && at(6, 2) && at(3, 3) && at(0, 5) && at(6, 6), 1);

    /* the limits' corners, round in a bow and crosswise, and each coordinate one too far */
    static const int32_t corners[][8] = {{-16384, -16384, 16383, -16384, 16383, 16383, -16384, 16383},
        {-16384, -16384, 16383, 16383, -16384, 16383, 16383, -16384}, {7, 3, -16384, 16383, 16383, 16383, 9, 3}};
    uint8_t once[sizeof sheet];
    for (size_t c = 0; c < sizeof corners / sizeof *corners; c++)
        for (uint32_t s = 0; s <= 6; s++) {
            same("control points at the limits' corners are drawn", cubic(corners[c], s), PW_DONE);
            memcpy(once, sheet, sizeof sheet);
            same("and backwards", backwards(corners[c], s), PW_DONE);
            same("with the same cells", memcmp(once, sheet, sizeof sheet), 0);
        }
    for (int i = 0; i < 8; i++) {
        int32_t beyond[8];
        memcpy(beyond, arch, sizeof beyond);
        beyond[i] = i % 2 ? 16384 : -16385;
        same("a coordinate one beyond the limits is refused with 2, also beside an s of 7", cubic(beyond, 7), PW_COORDINATE);
    }
}

/* what is written: a record of each kind by its numbers in their order, after the ink 1, of which the first are coordinates, and
 * its bytes */
static const struct written {
    const char *word;
    int kind, coordinates, numbers;
    int64_t n[9];
    size_t size;
    uint8_t bytes[22];
} records[] = {
    {"line", 1, 4, 4, {0, 0, 2, 1}, 13, {11, 0, 1, 0, 1, 0, 0, 0, 0, 2, 0, 1, 0}},
    {"circle", 2, 2, 3, {-1, 2, 3}, 11, {9, 0, 2, 0, 1, 255, 255, 2, 0, 3, 0}},
    {"ellipse", 3, 2, 4, {-1, 2, 3, 3}, 13, {11, 0, 3, 0, 1, 255, 255, 2, 0, 3, 0, 3, 0}},
    {"curve", 4, 6, 7, {0, 0, 2, 4, 4, 0, 1}, 18, {16, 0, 4, 0, 1, 0, 0, 0, 0, 2, 0, 4, 0, 4, 0, 0, 0, 1}},
    {"cubic", 5, 8, 9, {9, 0, 0, 4, 259, 4, 4, 0, 6}, 22,
     {20, 0, 5, 0, 1, 9, 0, 0, 0, 0, 0, 4, 0, 3, 1, 4, 0, 4, 0, 0, 0, 6}},
};
enum { KINDS = sizeof records / sizeof *records };

/* the lent buffer, what it held before, and how much of it is filled */
uint8_t buffer[96];
static uint8_t before[sizeof buffer];
uint64_t filled;

uint32_t append(int kind, const int64_t *n, size_t len) {
    switch (kind) {
    case 1: return pw_write_line(buffer, len, &filled, 1, n[0], n[1], n[2], n[3]);
    case 2: return pw_write_circle(buffer, len, &filled, 1, n[0], n[1], n[2]);
    case 3: return pw_write_ellipse(buffer, len, &filled, 1, n[0], n[1], n[2], n[3]);
    case 4: return pw_write_curve(buffer, len, &filled, 1, n[0], n[1], n[2], n[3], n[4], n[5], n[6]);
    default: return pw_write_cubic(buffer, len, &filled, 1, n[0], n[1], n[2], n[3], n[4], n[5], n[6], n[7], n[8]);
    }
}

/* holds a record's reply, the filled count and every byte of the buffer to what they should be; it begins as bytes of 170 */
static void writes(const struct written *r, const char *example, size_t len, uint64_t from, uint32_t number) {
    char said[128];
    memset(buffer, 170, sizeof buffer);
    memset(before, 170, sizeof before);
    filled = from;
    snprintf(said, sizeof said, "%s: %s", r->word, example);
    same(said, append(r->kind, r->n, len), number);
    if (number == PW_DONE)
        memcpy(before + from, r->bytes, r->size);
    snprintf(said, sizeof said, "%s: %s: the filled count and all bytes", r->word, example);
    same(said, filled == from + (number == PW_DONE ? r->size : 0) && memcmp(before, buffer, sizeof buffer) == 0, 1);
}

/* the same record with its ith number another, which is refused; and so it is where no byte is free */
static void refuses(const struct written *r, int i, int64_t n, uint32_t number) {
    struct written other = *r;
    char example[64];
    other.n[i] = n;
    snprintf(example, sizeof example, "number %d of %lld is refused with %u", i, (long long)n, number);
    writes(&other, example, sizeof buffer, 7, number);
    writes(&other, example, 0, 0, number);
}

/* the same record with its ith number another, of so many bytes, which is written */
static void takes(const struct written *r, int i, int64_t n, int bytes) {
    struct written other = *r;
    char example[64];
    other.n[i] = n;
    other.bytes[5 + 2 * i] = (uint8_t)n;
    if (bytes == 2)
        other.bytes[6 + 2 * i] = (uint8_t)(n >> 8);
    snprintf(example, sizeof example, "number %d of %lld is written", i, (long long)n);
    writes(&other, example, sizeof buffer, 7, PW_DONE);
}

/* the limits of each number, and beyond them also what would be within them in 8 or 16 bits */
static void written_limits(const struct written *r) {
    static const int64_t far[] = {-16385, 16384, -65536, 65536, INT32_MIN, INT32_MAX}, large[] = {16384, 65537, UINT32_MAX};
    static const int64_t pieces[] = {7, 256, UINT32_MAX};
    int last = r->numbers - 1;
    for (int i = 0; i < r->coordinates; i++) {
        takes(r, i, -16384, 2);
        takes(r, i, 16383, 2);
        for (size_t f = 0; f < sizeof far / sizeof *far; f++)
            refuses(r, i, far[f], PW_COORDINATE);
    }
    if (r->kind == 2 || r->kind == 3)
        for (int i = r->coordinates; i <= last; i++) {
            takes(r, i, 16383, 2);
            for (size_t f = 0; f < sizeof large / sizeof *large; f++)
                refuses(r, i, large[f], PW_RADIUS);
        }
    if (r->kind == 4 || r->kind == 5) {
        takes(r, last, 0, 1);
        takes(r, last, 6, 1);
        for (size_t f = 0; f < sizeof pieces / sizeof *pieces; f++)
            refuses(r, last, pieces[f], PW_PIECES);
    }
    /* of two numbers that are wrong, a coordinate is told first */
    if (r->kind > 1) {
        struct written both = *r;
        both.n[last] = UINT32_MAX;
        refuses(&both, r->coordinates - 1, 16384, PW_COORDINATE);
    }
}

/* document 02, K1 */
static void writers(void) {
    static const struct written none[] = {
        {"circle of radius 0", 2, 2, 3, {1, 2, 0}, 11, {9, 0, 2, 0, 1, 1, 0, 2, 0, 0, 0}},
        {"ellipse of axes 0", 3, 2, 4, {1, 2, 0, 0}, 13, {11, 0, 3, 0, 1, 1, 0, 2, 0, 0, 0, 0, 0}}};
    for (const struct written *r = records; r < records + KINDS; r++) {
        writes(r, "written into an empty buffer", sizeof buffer, 0, PW_DONE);
        writes(r, "written with exactly the room it takes", 7 + r->size, 7, PW_DONE);
        writes(r, "one byte short is refused with 11", 6 + r->size, 7, PW_FULL);
        writes(r, "no byte is refused with 11", 0, 0, PW_FULL);
        writes(r, "a full buffer is refused with 11", 7, 7, PW_FULL);
        /* a filled count above the length: no byte is free, also where the sum or 32 bits of it would be small */
        writes(r, "filled one above the length is refused with 11", sizeof buffer, sizeof buffer + 1, PW_FULL);
        writes(r, "filled 2^32 is refused with 11", sizeof buffer, (uint64_t)1 << 32, PW_FULL);
        writes(r, "filled so that the sum is 0 is refused with 11", sizeof buffer, 0 - (uint64_t)r->size, PW_FULL);
        writes(r, "filled 2^64 - 1 is refused with 11", sizeof buffer, UINT64_MAX, PW_FULL);
        written_limits(r);
    }
    writes(&none[0], "written", sizeof buffer, 0, PW_DONE);
    writes(&none[1], "written", sizeof buffer, 0, PW_DONE);
    /* a single axis of 0, the one or the other */
    refuses(&records[2], 2, 0, PW_RADIUS);
    refuses(&records[2], 3, 0, PW_RADIUS);

    /* one after another, each leaves a file that is drawn: its records are counted, and a refusal between them is in none */
    filled = 0;
    clear();
    for (size_t i = 0; i < KINDS; i++) {
        static const int64_t beyond[9] = {16384};
        same("a record after others is written", append(records[i].kind, records[i].n, sizeof buffer), PW_DONE);
        same("one beyond the limits is not", append(records[i].kind, beyond, sizeof buffer), PW_COORDINATE);
        same("what is written is a file", file((const char *)buffer, filled), PW_DONE);
        same("of as many records", (long long)value, (long long)i + 1);
    }
    uint8_t drawn[sizeof sheet];
    uint32_t cells;
    memcpy(drawn, sheet, sizeof sheet);
    clear();
    pw_line(sheet, sizeof sheet, WIDTH, HEIGHT, WIDTH, 1, 0, 0, 2, 1, &cells, box);
    pw_ellipse(sheet, sizeof sheet, WIDTH, HEIGHT, WIDTH, 1, -1, 2, 3, 3, box);
    pw_curve(sheet, sizeof sheet, WIDTH, HEIGHT, WIDTH, 1, 0, 0, 2, 4, 4, 0, 1, box);
    pw_cubic(sheet, sizeof sheet, WIDTH, HEIGHT, WIDTH, 1, 9, 0, 0, 4, 259, 4, 4, 0, 6, box);
    same("the file draws the figures that were written", memcmp(drawn, sheet, sizeof sheet), 0);
    same("every ink is written", pw_write_circle(buffer, sizeof buffer, &filled, 255, 1, 2, 3), PW_DONE);
    same("as it is", buffer[filled - 7], 255);
}

/* what is rescued, the lent buffer and lists, and what is told; before, all that is lent holds bytes of 170, and 99 is told */
enum { PLACES = 128 };
static uint8_t damaged[PLACES], copy[PLACES];
static uint64_t offsets[PLACES], numbers[PLACES], copied, listed;

static uint32_t rescue(size_t n, size_t room, size_t no, size_t nn) {
    memset(copy, 170, sizeof copy);
    memset(offsets, 170, sizeof offsets);
    memset(numbers, 170, sizeof numbers);
    copied = listed = 99;
    return pw_rescue(damaged, n, copy, room, offsets, no, numbers, nn, &copied, &listed);
}

/* whether the bytes of the buffer and the places of the lists are as they were, from these on */
static int stays(size_t bytes, size_t places) {
    static const uint64_t held = UINT64_C(0xaaaaaaaaaaaaaaaa);
    for (; bytes < PLACES; bytes++)
        if (copy[bytes] != 170)
            return 0;
    for (; places < PLACES; places++)
        if (offsets[places] != held || numbers[places] != held)
            return 0;
    return 1;
}

/* a damaged record between a line and a circle: it is left out by this number, and the two are copied */
static void leaves_out(const char *example, const uint8_t *bytes, size_t size, uint32_t number) {
    const struct written *line = &records[0], *circle = &records[1];
    size_t n = line->size + size + circle->size;
    memcpy(damaged, line->bytes, line->size);
    memcpy(damaged + line->size, bytes, size);
    memcpy(damaged + line->size + size, circle->bytes, circle->size);
    same(example, rescue(n, n, n, n), PW_DONE);
    same(example, copied == 24 && memcmp(copy, line->bytes, 13) == 0 && memcmp(copy + 13, circle->bytes, 11) == 0, 1);
    same(example, listed == 1 && offsets[0] == 13 && numbers[0] == number, 1);
    same("and what lies beyond stays", stays(24, 1), 1);
    same("what is copied is a file", file((const char *)copy, copied), PW_DONE);
    same("of two records", (long long)value, 2);
}

/* a record that is damaged in each of the ways that its kind has: its length, its kind, each of its fields */
static void each_damage(const struct written *r) {
    uint8_t bytes[24] = {0};
    memcpy(bytes, r->bytes, r->size);
    bytes[0]++;
    leaves_out("a length that is not that of its kind is left out with 10", bytes, r->size + 1, PW_LENGTH);
    bytes[0] = 2;
    leaves_out("and so is one of a kind alone", bytes, 4, PW_LENGTH);
    bytes[0] = r->bytes[0];
    bytes[2] = 6;
    leaves_out("kind 6 is left out with 9", bytes, r->size, PW_KIND);
    bytes[2] = r->bytes[2];
    bytes[3] = 1;
    leaves_out("and so is a kind above 255", bytes, r->size, PW_KIND);
    bytes[3] = 0;
    for (int i = 0; i < r->numbers; i++) {
        uint32_t number = i < r->coordinates ? PW_COORDINATE : r->kind > 3 ? PW_PIECES : PW_RADIUS;
        size_t at = number == PW_PIECES ? 5 + 2 * (size_t)i : 6 + 2 * (size_t)i;
        bytes[at] = 0x40;
        leaves_out("a field outside its limits is left out with 2, 3 or 4", bytes, r->size, number);
        bytes[at] = r->bytes[at];
    }
}

/* document 02, K11 */
static void rescues(void) {
    static const uint8_t none[2] = {0}, one[3] = {1, 0, 1}, flat[] = {11, 0, 3, 0, 1, 1, 0, 2, 0, 0, 0, 1, 0};
    size_t n = 0;
    same("an empty file is rescued", rescue(0, 0, 0, 0), PW_DONE);
    same("nothing is copied or listed", copied == 0 && listed == 0 && stays(0, 0), 1);

    for (const struct written *r = records; r < records + KINDS; r++) {
        memcpy(damaged + n, r->bytes, r->size);
        n += r->size;
    }
    same("a sound file is rescued with exactly the room it takes", rescue(n, n, n, n), PW_DONE);
    same("it is copied whole, with an empty list", copied == n && memcmp(copy, damaged, n) == 0 && listed == 0 && stays(n, 0), 1);
    same("and with more room", rescue(n, PLACES, PLACES, PLACES), PW_DONE);
    same("likewise", copied == n && memcmp(copy, damaged, n) == 0 && listed == 0 && stays(n, 0), 1);

    /* the room is asked for by the file's length, whatever is in it: the buffer's first, then that of either list */
    static const struct {
        const char *example;
        size_t room, no, nn;
        uint32_t number;
    } rooms[] = {{"a byte too few is refused with 11", 1, 0, 0, PW_FULL}, {"a place of offsets too few with 5", 0, 1, 0, PW_ROOM},
        {"a place of numbers too few with 5", 0, 0, 1, PW_ROOM}, {"too few places in both with 5", 0, 1, 1, PW_ROOM},
        {"too few of all with 11", 1, 1, 1, PW_FULL}, {"too few bytes and offsets with 11", 1, 1, 0, PW_FULL},
        {"too few bytes and numbers with 11", 1, 0, 1, PW_FULL}};
    for (size_t i = 0; i < sizeof rooms / sizeof *rooms; i++) {
        same(rooms[i].example, rescue(n, n - rooms[i].room, n - rooms[i].no, n - rooms[i].nn), rooms[i].number);
        same("and nothing moves", copied == 99 && listed == 99 && stays(0, 0), 1);
    }
    same("no byte at all is refused with 11", rescue(n, 0, 0, 0), PW_FULL);
    same("no place at all with 5", rescue(n, n, 0, 0), PW_ROOM);

    for (const struct written *r = records; r < records + KINDS; r++)
        each_damage(r);
    leaves_out("length 0 is left out with 16", none, sizeof none, PW_KINDLESS);
    leaves_out("length 1 is left out with 16", one, sizeof one, PW_KINDLESS);
    leaves_out("a single axis of 0 is left out with 3", flat, sizeof flat, PW_RADIUS);

    /* where a length does not fit what is left the rescue stops, with all that precedes it: a circle, two left out, a line */
    static const uint8_t cut[] = {9, 0, 2, 0, 1, 255, 255, 2, 0, 3, 0, 0, 0, 2, 0, 9, 0, 11, 0, 1, 0, 1, 0, 0, 0, 0, 2, 0, 1, 0,
        12, 0, 1, 0, 1, 0, 0, 0, 0, 2, 0, 1, 0};
    memcpy(damaged, cut, sizeof cut);
    for (n = 31; n <= sizeof cut; n++) {
        same("a file that is cut off is rescued", rescue(n, n, n, n), PW_DONE);
        same("up to there", copied == 24 && memcmp(copy, cut, 11) == 0 && memcmp(copy + 11, cut + 17, 13) == 0, 1);
        same("with the stop in the list", listed == 3 && offsets[2] == 30 && numbers[2] == PW_SHORT, 1);
        same("after what is left out", offsets[0] == 11 && numbers[0] == PW_KINDLESS, 1);
        same("in the file's order", offsets[1] == 13 && numbers[1] == PW_KIND, 1);
        same("and what lies beyond stays", stays(24, 3), 1);
    }
    memset(damaged, 0, sizeof damaged);
    same("zeros are rescued", rescue(PLACES, PLACES, PLACES, PLACES), PW_DONE);
    same("each two are left out", copied == 0 && listed == PLACES / 2 && stays(0, PLACES / 2), 1);
    same("to the last", offsets[PLACES / 2 - 1] == PLACES - 2 && numbers[PLACES / 2 - 1] == PW_KINDLESS, 1);
}

int main(void) {
    uint32_t cells;

    /* the points are (0,0), the middle and (0,4): were the middle -1, its cell would lie off the sheet */
    clear();
    same("a curve with x of 0, -1, 0 and s = 1 is drawn",
         pw_curve(sheet, sizeof sheet, WIDTH, HEIGHT, WIDTH, 1, 0, 0, -1, 2, 0, 4, 1, box), PW_DONE);
    same("x of 0, -1, 0: -0.5 becomes 0", set() == 5 && at(0, 0) && at(0, 1) && at(0, 2) && at(0, 3) && at(0, 4), 1);

    same("origin 1000.0, size 25.0: 1062.5 is cell 2", column(1000.0, 25.0, 1062.5), 2);
    same("origin 1000.0, size 25.0: 1000.0 is cell 0", column(1000.0, 25.0, 1000.0), 0);
    same("origin 1000.0, size 25.0: 999.0 is cell -1", column(1000.0, 25.0, 999.0), -1);
    same("position -0.0, origin 0.0: cell 0", column(0.0, 1.0, -0.0), 0);

    /* document 02, K10 */
    clear();
    same("both axes 0 are drawn", pw_ellipse(sheet, sizeof sheet, WIDTH, HEIGHT, WIDTH, 1, 1, 2, 0, 0, box), PW_DONE);
    same("both axes 0 are one cell", set() == 1 && at(1, 2), 1);
    same("a single axis of 0 is refused with 3",
         pw_ellipse(sheet, sizeof sheet, WIDTH, HEIGHT, WIDTH, 1, 1, 2, 0, 3, box), PW_RADIUS);
    same("and so is the other", pw_ellipse(sheet, sizeof sheet, WIDTH, HEIGHT, WIDTH, 1, 1, 2, 3, 0, box), PW_RADIUS);
    same("axes of 16,384 are refused with 3",
         pw_ellipse(sheet, sizeof sheet, WIDTH, HEIGHT, WIDTH, 1, 1, 2, 16384, 16384, box), PW_RADIUS);
    clear();
    same("lengths below a cell are drawn",
         pw_ellipse_metres(sheet, sizeof sheet, WIDTH, HEIGHT, WIDTH, 1, 0.0, 0.0, 25.0, 30.0, 60.0, 24.0, 0.0, box),
         PW_DONE);
    same("lengths below a cell are one cell", set() == 1 && at(1, 2), 1);
    same("one length below a cell is refused with 3",
         pw_ellipse_metres(sheet, sizeof sheet, WIDTH, HEIGHT, WIDTH, 1, 0.0, 0.0, 25.0, 30.0, 60.0, 24.0, 25.0, box),
         PW_RADIUS);

    cells = 0;
    same("coordinate 16,383 is drawn",
         pw_line(sheet, sizeof sheet, WIDTH, HEIGHT, WIDTH, 1, 0, 0, 16383, 0, &cells, box), PW_DONE);
    same("the line to 16,383 has the sheet's first row", cells, WIDTH);
    same("coordinate 16,384 is refused with 2",
         pw_line(sheet, sizeof sheet, WIDTH, HEIGHT, WIDTH, 1, 0, 0, 16384, 0, &cells, box), PW_COORDINATE);
    same("s = 6 is drawn", pw_curve(sheet, sizeof sheet, WIDTH, HEIGHT, WIDTH, 1, 0, 0, 2, 4, 4, 0, 6, box), PW_DONE);
    same("s = 7 is refused with 4",
         pw_curve(sheet, sizeof sheet, WIDTH, HEIGHT, WIDTH, 1, 0, 0, 2, 4, 4, 0, 7, box), PW_PIECES);
    same("size 0.0 is refused with 6",
         pw_line_metres(sheet, sizeof sheet, WIDTH, HEIGHT, WIDTH, 1, 0.0, 0.0, 0.0, 0.0, 0.0, 0.0, 0.0, &cells, box),
         PW_SURVEY);

    same("length 1 with one byte after it: 16", file("\x01\x00\x01", 3), PW_KINDLESS);
    same("length 1 with nothing after it: 8", file("\x01\x00", 2), PW_SHORT);
    same("kind 9 with length 11 and its 11 bytes: 9", file("\x0b\x00\x09\x00\x01\x00\x00\x00\x00\x02\x00\x01\x00", 13), PW_KIND);
    same("a lone byte: 8", file("\x0b", 1), PW_SHORT);
    same("a lone byte: at offset 0", (long long)value, 0);

    cubics();
    writers();
    rescues();
    repaints();
    tallies();
    pictures();

    printf("%d passed, %d failed\n", passed, failed);
    return failed != 0;
}
