/* tally_refused.c: what is refused of a sheet with a list beside it, and in which order; document 02, K14. */
#include <string.h>

#include "examples.h"
#include "pistonwool.h"
#include "tally.h"

static struct lent held;

/* row y has its first y + 1 cells set, so that each row has a number of its own */
static void steps(void) {
    lay(PITCH, 0);
    for (int y = 0; y < HEIGHT; y++) {
        tally[y] = (uint32_t)y + 1;
        memset(lent.bytes + y * PITCH, 255, tally[y]);
    }
}

/* makes a call that is refused: all that was lent stays, but for a file's value */
static void refused(const char *example, const struct call *c, uint32_t number, uint64_t offset) {
    memcpy(&held, &lent, sizeof lent);
    if (c->form == RECORDS)
        held.value = offset;
    same(example, tallied(c), number);
    same("a refusal leaves all as it was", memcmp(&lent, &held, sizeof lent), 0);
}

/* what may be wrong beside what the form refuses on its own, in the order in which it is told */
enum fault { SIZE = 1, SLICE = 2, PLACES = 4, WRONG = 8, FAULTS = 16 };

static void spoil(struct call *c, unsigned faults) {
    if (faults & SIZE) {
        c->pitch = WIDTH - 1;
        c->len = (size_t)c->pitch * HEIGHT;
    }
    if (faults & SLICE)
        c->len--;
    if (faults & PLACES)
        c->places--;
    if (faults & WRONG)
        tally[4]++;
}

/* the number of the first of these faults, and else this one */
static uint32_t first(unsigned faults, uint32_t none) {
    return faults & SIZE ? PW_SIZE : faults & SLICE ? PW_SLICE : faults & PLACES ? PW_PLACES : faults & WRONG ? PW_TALLY : none;
}

/* a call that the form refuses on its own, with every set of faults beside that */
static void in_order(const char *example, const struct call *c, uint32_t own, uint64_t offset) {
    for (unsigned faults = 0; faults < FAULTS; faults++) {
        struct call spoilt = *c;
        steps();
        spoil(&spoilt, faults);
        refused(example, &spoilt, first(faults, own), faults ? 0 : offset);
    }
}

/* what each form refuses on its own; by a cell size of 0.0, or with so many places too few in the work slice */
static const struct {
    const char *example;
    enum form form;
    int64_t n[9];
    uint32_t number;
    int sizeless;
    size_t lacking;
} own[] = {
    {"a line to 16,384", LINE, {0, 0, 16384, 0}, PW_COORDINATE, 0, 0},
    {"a ring about 16,384", RING, {16384, 4, 3, 3}, PW_COORDINATE, 0, 0},
    {"a single axis of 0", RING, {8, 4, 0, 3}, PW_RADIUS, 0, 0},
    {"a curve from -16,385", CURVE, {-16385, 0, 4, 4, 8, 0, 7}, PW_COORDINATE, 0, 0},
    {"a curve with s = 7", CURVE, {0, 0, 4, 4, 8, 0, 7}, PW_PIECES, 0, 0},
    {"a cubic to 16,384", CUBIC, {0, 0, 4, 4, 8, 4, 8, 16384, 7}, PW_COORDINATE, 0, 0},
    {"a cubic with s = 7", CUBIC, {0, 0, 4, 4, 8, 4, 8, 0, 7}, PW_PIECES, 0, 0},
    {"a line in metres to 16,384", LINE_METRES, {0, 0, 16384, 0}, PW_NO_CELL, 0, 0},
    {"a line by cells of 0.0", LINE_METRES, {0, 0, 16384, 0}, PW_SURVEY, 1, 0},
    {"a ring in metres about 16,384", RING_METRES, {16384, 4, 0, 3}, PW_NO_CELL, 0, 0},
    {"a ring by cells of 0.0", RING_METRES, {8, 4, 3, 3}, PW_SURVEY, 1, 0},
    {"a single length of 0", RING_METRES, {8, 4, 0, 3}, PW_RADIUS, 0, 0},
    {"a start right of the sheet", FILL, {17, 0, 255}, PW_START, 0, 0},
    {"a start below it", FILL, {0, 9, 255}, PW_START, 0, 0},
    {"a start at -2^31", FILL, {INT32_MIN, 0, 255}, PW_START, 0, 0},
    {"a work slice one place short", FILL, {16, 0, 255}, PW_WORK, 0, 1},
    {"no work slice, for a start left of the sheet", FILL, {-1, 0, 255}, PW_WORK, 0, CELLS},
};

/* a file of a line, a ring and a curve, of which one byte is another: the number and the offset it is refused with */
static const struct {
    const char *example;
    size_t at;
    uint8_t byte;
    uint32_t number;
    uint64_t offset;
} spoilt[] = {
    {"a length that goes beyond the end", 26, 17, PW_SHORT, 26}, {"a length of 0", 13, 0, PW_KINDLESS, 13},
    {"kind 6", 15, 6, PW_KIND, 15},                              {"kind 2 with a length of 11", 15, 2, PW_LENGTH, 13},
    {"a centre at 16,384 and more", 19, 64, PW_COORDINATE, 18},  {"an axis of 16,384 and more", 25, 64, PW_RADIUS, 24},
    {"a curve with s = 7", 43, 7, PW_PIECES, 43},
};

/* calls that nothing is wrong with, of each form and, of some, with nothing to set */
static const struct {
    const char *example;
    enum form form;
    int64_t n[9];
} sound[] = {
    {"counting afresh", AFRESH, {0}},
    {"a line in row 6", LINE, {2, 6, 9, 6}},
    {"a line off the sheet", LINE, {-9, 0, -1, 8}},
    {"a ring", RING, {7, 4, 3, 3}},
    {"a ring off the sheet", RING, {27, 3, 10, 4}},
    {"a curve", CURVE, {2, 2, 7, -8, 12, 2, 1}},
    {"a cubic", CUBIC, {0, 0, 0, 4, 4, 4, 4, 0, 1}},
    {"a file", RECORDS, {0}},
    {"a line in metres", LINE_METRES, {2, 6, 9, 6}},
    {"a ring in metres", RING_METRES, {7, 4, 3, 3}},
    {"a fill", FILL, {16, 0, 255}},
    {"a fill that starts on the boundary", FILL, {0, 8, 255}},
};

/* sheets and lists that cannot be lent */
static void unlendable(const char *example, const struct call *c) {
    static const uint32_t sizes[][3] = {{0, HEIGHT, PITCH}, {4097, HEIGHT, 8192}, {WIDTH, 0, PITCH}, {WIDTH, 4097, PITCH},
        {WIDTH, HEIGHT, WIDTH - 1}, {WIDTH, HEIGHT, 8193}, {0, 0, 0}};
    static const size_t lengths[] = {PITCH * HEIGHT - 1, PITCH * HEIGHT + 1, 0}, places[] = {HEIGHT - 1, HEIGHT + 1, 1, 0};
    struct call other;
    steps();
    for (size_t i = 0; i < sizeof sizes / sizeof *sizes; i++) {
        other = *c;
        other.width = sizes[i][0], other.height = sizes[i][1], other.pitch = sizes[i][2];
        refused(example, &other, PW_SIZE, 0);
    }
    other = *c;
    for (size_t i = 0; i < sizeof lengths / sizeof *lengths; i++) {
        other.len = lengths[i];
        refused(example, &other, PW_SLICE, 0);
    }
    other = *c;
    for (size_t i = 0; i < sizeof places / sizeof *places; i++) {
        other.places = places[i];
        refused(example, &other, PW_PLACES, 0);
    }
}

/* lists that are wrong: in one place by so much, also by as much as the line in row 6 adds to it; with two rows exchanged; with
 * the numbers of the rows below */
static void wrong_lists(const char *example, const struct call *c) {
    static const struct {
        int place;
        uint32_t by;
    } wrong[] = {{0, 1}, {0, -1u}, {8, 1}, {8, -1u}, {6, 1}, {6, -1u}, {6, 3}, {3, 256}, {3, 65536}, {3, 1u << 31}};
    for (size_t i = 0; i < sizeof wrong / sizeof *wrong; i++) {
        steps();
        tally[wrong[i].place] += wrong[i].by;
        refused(example, c, PW_TALLY, 0);
    }
    steps();
    tally[1] = 3, tally[2] = 2;
    refused(example, c, PW_TALLY, 0);
    steps();
    for (int y = 0; y < HEIGHT; y++)
        tally[y]++;
    refused(example, c, PW_TALLY, 0);
}

/* counting afresh looks at the list's length and never at its numbers */
static void afresh(const struct call *c) {
    struct lent right;
    for (unsigned faults = 0; faults < FAULTS; faults++) {
        struct call other = *c;
        steps();
        memcpy(&right, &lent, sizeof lent);
        spoil(&other, faults);
        memcpy(&held, &lent, sizeof lent);
        uint32_t due = first(faults & ~(unsigned)WRONG, PW_DONE);
        same("counting afresh", tallied(&other), due);
        same("and all but the list", memcmp(&lent, due == PW_DONE ? &right : &held, sizeof lent), 0);
    }
}

static void write_file(void) {
    filled = 0;
    append(LINE, (const int64_t[9]){1, 1, 2, 2}, sizeof buffer);
    append(RING, (const int64_t[9]){13, 6, 1, 1}, sizeof buffer);
    append(CURVE, (const int64_t[9]){2, 6, 2, 7, 2, 8, 1}, sizeof buffer);
    same("a file of three records is written", (long long)filled, 44);
}

void tally_refusals(void) {
    static const int64_t none[9];
    for (size_t i = 0; i < sizeof own / sizeof *own; i++) {
        struct call c = call(own[i].form, PITCH, 1, own[i].n);
        c.size = own[i].sizeless ? 0.0 : c.size;
        c.room -= own[i].lacking;
        in_order(own[i].example, &c, own[i].number, 0);
    }
    struct call file = call(RECORDS, PITCH, 1, none);
    for (size_t i = 0; i < sizeof spoilt / sizeof *spoilt; i++) {
        write_file();
        buffer[spoilt[i].at] = spoilt[i].byte;
        in_order(spoilt[i].example, &file, spoilt[i].number, spoilt[i].offset);
    }
    write_file();
    for (size_t i = 0; i < sizeof sound / sizeof *sound; i++) {
        struct call c = call(sound[i].form, PITCH, 1, sound[i].n);
        unlendable(sound[i].example, &c);
        if (c.form == AFRESH)
            afresh(&c);
        else
            wrong_lists(sound[i].example, &c);
    }
}
