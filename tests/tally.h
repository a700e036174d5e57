/* tally.h: what the examples of tallies share: calls that take a list, and all that is lent to them. */
#ifndef TALLY_H
#define TALLY_H

#include <stddef.h>
#include <stdint.h>

/* what takes a list: counting afresh, and eight forms, of which figures have the numbers of their records */
enum form { AFRESH, LINE, RING = 3, CURVE, CUBIC, RECORDS, LINE_METRES, RING_METRES, FILL };
enum { WIDTH = 17, HEIGHT = 9, PITCH = 24, CELLS = WIDTH * HEIGHT, NOISE = 170 };

/* all that is lent, so that one comparison tells whether a call left it as it was; the sheet has a byte of noise after it, the
 * list a place before it and one after it */
extern struct lent {
    uint8_t bytes[PITCH * HEIGHT + 1];
    uint32_t list[HEIGHT + 2], work[CELLS], box[4], cells;
    uint64_t value;
} lent;
extern uint32_t *const tally;

/* how the bytes and the list are lent and what is drawn: a figure by its numbers in the record's order, or by a fill x, y and
 * the boundary's ink; a file is what the buffer holds */
struct call {
    enum form form;
    size_t len;
    uint32_t width, height, pitch;
    size_t places, room;
    uint8_t ink;
    double size;
    int64_t n[9];
};

/* a call in which nothing but these numbers can be wrong */
struct call call(enum form form, uint32_t pitch, uint8_t ink, const int64_t n[9]);
/* makes it with its list, and answers the reply */
uint32_t tallied(const struct call *c);
/* lends all anew: cells of this ink, the list that is right for them, and noise in everything else */
void lay(uint32_t pitch, uint8_t ink);

/* what is refused; how sheets of many widths are counted */
void tally_refusals(void);
void tally_counts(void);

#endif
