/* records.c: what a C programmer would write without us to append a record to a buffer, to read a file of records and to rescue
 * a damaged one: every limit and the room are tested, and a refusal says where it is, by the numbers of the header. */
#include <string.h>

#include "pistonwool.h"
#include "speed.h"

static const uint32_t lengths[] = {[LINE] = 11, [CIRCLE] = 9, [ELLIPSE] = 11, [CURVE] = 16, [CUBIC] = 20};

/* -16,384 to 16,383, by one comparison */
static int within(int32_t coordinate) {
    return (uint32_t)coordinate + 16384 < 32768;
}

static int is_axis(uint32_t a, uint32_t other) {
    return a <= 16383 && (a != 0 || other == 0);
}

static uint8_t *put(uint8_t *to, uint32_t value) {
    to[0] = (uint8_t)value;
    to[1] = (uint8_t)(value >> 8);
    return to + 2;
}

static uint8_t *point(uint8_t *to, int32_t x, int32_t y) {
    return put(put(to, (uint32_t)x), (uint32_t)y);
}

/* begins a record with ink 1 where there is room for all of it, and answers where its fields go */
static uint8_t *begin(uint8_t *buffer, size_t len, uint64_t *filled, enum kind kind) {
    uint32_t size = lengths[kind] + 2;
    if (*filled > len || len - *filled < size)
        return NULL;
    uint8_t *to = put(put(buffer + *filled, lengths[kind]), kind);
    *to = 1;
    *filled += size;
    return to + 1;
}

static uint32_t append_line(uint8_t *buffer, size_t len, uint64_t *filled, const struct figure *f) {
    if (!within(f->x0) || !within(f->y0) || !within(f->x1) || !within(f->y1))
        return PW_COORDINATE;
    uint8_t *to = begin(buffer, len, filled, LINE);
    if (!to)
        return PW_FULL;
    point(point(to, f->x0, f->y0), f->x1, f->y1);
    return PW_DONE;
}

static uint32_t append_circle(uint8_t *buffer, size_t len, uint64_t *filled, const struct figure *f) {
    if (!within(f->x0) || !within(f->y0))
        return PW_COORDINATE;
    if (f->a > 16383)
        return PW_RADIUS;
    uint8_t *to = begin(buffer, len, filled, CIRCLE);
    if (!to)
        return PW_FULL;
    put(point(to, f->x0, f->y0), f->a);
    return PW_DONE;
}

static uint32_t append_ellipse(uint8_t *buffer, size_t len, uint64_t *filled, const struct figure *f) {
    if (!within(f->x0) || !within(f->y0))
        return PW_COORDINATE;
    if (!is_axis(f->a, f->b) || !is_axis(f->b, f->a))
        return PW_RADIUS;
    uint8_t *to = begin(buffer, len, filled, ELLIPSE);
    if (!to)
        return PW_FULL;
    put(put(point(to, f->x0, f->y0), f->a), f->b);
    return PW_DONE;
}

static uint32_t append_curve(uint8_t *buffer, size_t len, uint64_t *filled, const struct figure *f) {
    if (!within(f->x0) || !within(f->y0) || !within(f->x1) || !within(f->y1) || !within(f->x2) || !within(f->y2))
        return PW_COORDINATE;
    if (f->kind == CUBIC && (!within(f->x3) || !within(f->y3)))
        return PW_COORDINATE;
    if (f->s > 6)
        return PW_PIECES;
    uint8_t *to = begin(buffer, len, filled, f->kind);
    if (!to)
        return PW_FULL;
    to = point(point(point(to, f->x0, f->y0), f->x1, f->y1), f->x2, f->y2);
    if (f->kind == CUBIC)
        to = point(to, f->x3, f->y3);
    *to = (uint8_t)f->s;
    return PW_DONE;
}

uint32_t plain_append(uint8_t *buffer, size_t len, uint64_t *filled, const struct figure *f) {
    switch (f->kind) {
    case LINE: return append_line(buffer, len, filled, f);
    case CIRCLE: return append_circle(buffer, len, filled, f);
    case ELLIPSE: return append_ellipse(buffer, len, filled, f);
    case CURVE:
    case CUBIC: return append_curve(buffer, len, filled, f);
    case LISTING:
    case FILL: break;
    }
    return PW_KIND;
}

static uint32_t word(const uint8_t *from) {
    return (uint32_t)(from[0] | from[1] << 8);
}

/* where the first of so many coordinates is that is outside its limits, or 0 */
static uint32_t beyond(const uint8_t *record, uint32_t count) {
    for (uint32_t at = 5; at < 5 + 2 * count; at += 2)
        if (!within((int16_t)word(record + at)))
            return at;
    return 0;
}

static uint32_t read_ring(const uint8_t *record, uint32_t a, uint32_t b, uint32_t *place) {
    *place = beyond(record, 2);
    if (*place != 0)
        return PW_COORDINATE;
    *place = is_axis(a, b) ? 11 : 9;
    return is_axis(a, b) && is_axis(b, a) ? PW_DONE : PW_RADIUS;
}

static uint32_t read_curve(const uint8_t *record, uint32_t count, uint32_t *place) {
    *place = beyond(record, count);
    if (*place != 0)
        return PW_COORDINATE;
    *place = 5 + 2 * count;
    return record[*place] <= 6 ? PW_DONE : PW_PIECES;
}

/* reads a record of this length; where it is refused, place is where in it */
static uint32_t read_record(const uint8_t *record, uint32_t length, uint32_t *place) {
    uint32_t kind = word(record + 2);
    *place = 2;
    if (kind < LINE || kind > CUBIC)
        return PW_KIND;
    *place = 0;
    if (length != lengths[kind])
        return PW_LENGTH;
    switch (kind) {
    case LINE: *place = beyond(record, 4); return *place == 0 ? PW_DONE : PW_COORDINATE;
    case CIRCLE: return read_ring(record, word(record + 9), word(record + 9), place);
    case ELLIPSE: return read_ring(record, word(record + 9), word(record + 11), place);
    case CURVE: return read_curve(record, 6, place);
    default: return read_curve(record, 8, place);
    }
}

uint32_t plain_read(const uint8_t *file, size_t n, uint64_t *value) {
    uint64_t records = 0;
    for (size_t at = 0; at < n; records++) {
        *value = at;
        if (n - at < 2)
            return PW_SHORT;
        uint32_t length = word(file + at), place;
        if (n - at - 2 < length)
            return PW_SHORT;
        if (length < 2)
            return PW_KINDLESS;
        uint32_t reply = read_record(file + at, length, &place);
        if (reply != PW_DONE) {
            *value = at + place;
            return reply;
        }
        at += length + 2;
    }
    *value = records;
    return PW_DONE;
}

uint32_t plain_rescue(const uint8_t *file, size_t n, uint8_t *copy, size_t room, uint64_t *offsets, size_t no,
                      uint64_t *numbers, size_t nn, uint64_t *copied, uint64_t *listed) {
    if (room < n)
        return PW_FULL;
    if (no < n || nn < n)
        return PW_ROOM;
    size_t filled = 0, places = 0;
    for (size_t at = 0, size; at < n; at += size) {
        uint32_t length = n - at < 2 ? 0 : word(file + at), place;
        size = length + 2;
        uint32_t reply = n - at < size ? PW_SHORT : length < 2 ? PW_KINDLESS : read_record(file + at, length, &place);
        if (reply == PW_DONE) {
            memcpy(copy + filled, file + at, size);
            filled += size;
            continue;
        }
        offsets[places] = at;
        numbers[places++] = reply;
        if (reply == PW_SHORT)
            break;
    }
    *copied = filled;
    *listed = places;
    return PW_DONE;
}
