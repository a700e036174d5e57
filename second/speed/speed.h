/* speed.h: a figure to draw and the ways to draw it that are measured beside each other. */
#ifndef SPEED_H
#define SPEED_H

#include <stddef.h>
#include <stdint.h>

#ifdef __cplusplus
extern "C" {
#endif

enum kind { LINE = 1, CIRCLE, ELLIPSE, CURVE, CUBIC, LISTING, FILL };

/* what a fill meets: nothing, walls with a gap at alternating ends, lines, cells shut at random, a walled square */
enum ground { OPEN, SERPENTINE, LINES, NOISE, SQUARE };

struct figure {
    enum kind kind;
    int32_t x0, y0, x1, y1, x2, y2, x3, y3;
    uint32_t a, b, s;
};

struct sheet {
    uint8_t *bytes;
    uint32_t side, pitch;
    int32_t *xs, *ys;
    size_t places;
    uint32_t *work;
    /* what the sheet holds before a fill; a second sheet for rings that are to be the same; the sheet as OpenCV has pictures, 0
     * for ink and else 255 */
    uint8_t *fresh;
    const uint8_t *picture; /* the PBM that a way wrote last, in room of its own, or is to read */
    size_t pictured;
};

/* room for the largest sheet's picture and some bytes more */
enum { PICTURE = 4096 * 4096 / 8 + 16 };

/* a number from least to most */
int32_t between(int32_t least, int32_t most);
/* a figure of this kind that lies wholly on the sheet */
struct figure some(enum kind kind, int32_t side);
/* a line through the sheet between two cells far outside it */
struct figure far_line(int32_t side);
/* a ring that crosses the sheet, its centre up to its semi-axes away */
struct figure far_ring(enum kind kind, int32_t side);
/* a figure of this kind with any numbers within the limits */
struct figure any(enum kind kind);

/* lays the ground, ink 1 on ink 0, as what the sheet is to hold before; answers the fill that is measured on it */
struct figure lay(struct sheet *sheet, enum ground ground);
/* how many cells this fill sets, by the plain walk */
size_t territory(struct sheet *sheet, const struct figure *fill);

/* draws the figure with ink 1, or fills from (x0, y0) with ink 2 what ink 1 shuts in; answers whether this way knows the
 * figure's kind */
typedef int draw(struct sheet *sheet, const struct figure *figure);

/* a plain C walk, rings by eight arcs in turn: figures that lie wholly on the sheet step an index, others test each cell */
draw walk;
/* a plain C walk of circles and ellipses row by row, from the top down; of these it marks the cells that the library does */
draw by_rows;
/* the same figures by the libraries of these names, where they were there to compile with */
draw opencv, libgd;
/* counts the nonzero cells of each row into the work slice, by OpenCV; the figure is none */
draw opencv_tally;
/* writes the sheet as raw PBM, or reads one onto it, by OpenCV; the figure is none */
draw opencv_write, opencv_read;
/* the same by libnetpbm, once it was begun */
draw netpbm_write, netpbm_read;
void netpbm_begin(void);
/* libgd draws on an image of its own */
void libgd_begin(uint32_t side);
void libgd_end(void);

/* in plain C, appends the figure's record with ink 1 to a buffer, as the pw_write_ functions do */
uint32_t plain_append(uint8_t *buffer, size_t len, uint64_t *filled, const struct figure *figure);
/* in plain C, reads a file as pw_file does before it draws; value is then how many records, or the offset of what is refused */
uint32_t plain_read(const uint8_t *file, size_t n, uint64_t *value);
/* in plain C, copies the records of a damaged file that read well and lists the others, as pw_rescue does */
uint32_t plain_rescue(const uint8_t *file, size_t n, uint8_t *copy, size_t room, uint64_t *offsets, size_t no,
                      uint64_t *numbers, size_t nn, uint64_t *copied, uint64_t *listed);

/* the ith of the 2^s + 1 joined points of a curve or a cubic */
void joined(const struct figure *curve, uint32_t i, int32_t *x, int32_t *y);

#ifdef __cplusplus
}
#endif

#endif
