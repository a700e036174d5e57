/* table.h: the table that is printed, and who adds rows to it. */
#ifndef TABLE_H
#define TABLE_H

#include "speed.h"

/* the columns of the ways, those of a library where it was there to compile with */
enum {
    OURS,
    IN_C,
    IN_C_BY_ROWS,
#ifdef OPENCV
    BY_OPENCV,
#endif
#ifdef LIBGD
    BY_LIBGD,
#endif
#ifdef NETPBM
    BY_NETPBM,
#endif
    WAYS
};

/* a way to draw, how many figures it draws in a pass, and the nanoseconds of its best pass */
struct way {
    draw *draw;
    size_t figures;
    double best;
};

/* a way that knows no kind of figure */
draw unable;

/* stops where something is refused */
void done(uint32_t reply);

/* one row of the table: each way's nanoseconds by the unit, and ours as a part of the two in C and OpenCV's; s may be none */
void row(const char *name, const char *unit, struct sheet *s, struct way *ways, const struct figure *figures, size_t units);

/* the row of a damaged file that is rescued */
void rescue_row(void);

/* the rows of sheets that are counted afresh */
void tally_rows(void);

/* the rows of sheets that are written as pictures and read again */
void picture_rows(void);

#endif
