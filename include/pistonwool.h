/* Pistonwool: drawing on a sheet of cells, for C and C++.
 *
 * A sheet is height rows, pitch bytes from one to the next: cell (x, y) is byte y * pitch + x. Its length is exactly
 * pitch x height; what a row has after its width is padding, and no call changes it. Rows with none have the width as pitch.
 * Limits: width and height 1 to 4,096; pitch from width to 8,192; coordinates -16,384 to 16,383; semi-axes 0 to 16,383, a
 * 0 only beside another 0; s 0 to 6.
 * Drawing sets each of a figure's cells that lies on the sheet to the ink and leaves every other byte as it was. Filling a
 * territory (pw_fill) sets the cells that a boundary drawn so shuts in.
 *
 * A drawing tells what to repaint: box is then x, y, width and height of the smallest rectangle that holds the cells it set,
 * also those that had the ink already; all four are 0 where the figure has no cell on the sheet. Of a curve it is the rectangle
 * over all its lines, of a file that over all its records (examples/repaint.c).
 *
 * A tally is a list of 32-bit numbers kept beside a sheet, one place for each row from the top down: how many of the row's cells
 * are nonzero. Padding never counts. pw_tally counts it afresh; the forms whose names end in _tallied keep it right
 * (examples/tally.c). Such a form first counts the whole sheet, and refuses a list that is wrong before anything is set; then it
 * draws as the form without a list does; then it counts again the rows of the rectangle, after a fill those from the first to
 * the last that it set a cell in, and touches no other place. So it costs a pass over the sheet: who keeps no list uses the
 * forms without.
 *
 * A sheet goes out as a raw PBM picture, one bit for each cell, and a picture comes in onto a sheet of its size (pw_write_pbm,
 * pw_read_pbm; examples/picture.c).
 *
 * A window, a part of a larger sheet of this pitch that begins at (x, y) and is w by h, is a sheet too (examples/window.c):
 *     pw_line(sheet + (size_t)y * pitch + x, (size_t)pitch * h, w, h, pitch, ink, ...)
 * Its length counts its last row whole, so one that ends in the larger sheet's last row can be lent only if x is 0, or if x
 * more bytes follow the larger sheet.
 *
 * Every function but pw_pen_next answers a number of enum pw_reply. Any number other than PW_DONE is a refusal; a
 * refusal leaves every byte and every number that was lent as it was, but for the offset that pw_file and pw_file_tallied tell.
 *
 * Pointers must not be null, not even with length 0, must point to as many elements as the length after them says, and
 * must not overlap.
 * For figures in metres the calling thread must round doubles to nearest and keep denormals (pw_floats_sound tells).
 * Threads: there is no shared state, so any number of threads may call at once on different buffers. Two windows of one
 * larger sheet are not different buffers, as each may have cells of the other in its padding.
 * Only for 64-bit machines, where a size_t has 8 bytes. */
#ifndef PISTONWOOL_H
#define PISTONWOOL_H

#include <stddef.h>
#include <stdint.h>

/* the version of this header and of the library installed with it */
#define PW_VERSION "0.4.2"

#if SIZE_MAX != UINT64_MAX
#error "Pistonwool is for 64-bit machines only"
#endif

#ifdef __cplusplus
extern "C" {
#endif

/* What each number is given for. Where several apply, the first in this order: 1, 15; then with a tally 19, 20; then for a fill
 * 17, 18; for figures in metres 6, 7; for a record 8, 16, 9, 10; then 2, 3, 4; 5 of a listing is last, and so are 11 of a
 * record and 12 of a picture that is written; of a picture that is read 13, 14; for a rescue 11, 5. */
enum pw_reply {
    /* done */
    PW_DONE = 0,
    /* a width or height outside 1 to 4,096, or a pitch below the width or above 8,192 */
    PW_SIZE = 1,
    /* a coordinate outside -16,384 to 16,383 */
    PW_COORDINATE = 2,
    /* a radius or semi-axis outside 0 to 16,383, or a semi-axis of 0 beside one that is not */
    PW_RADIUS = 3,
    /* an s above 6 */
    PW_PIECES = 4,
    /* a lent list with fewer places than the line has cells, or than the file to be rescued has bytes */
    PW_ROOM = 5,
    /* an origin of the survey that is not finite, or a cell size that is not finite or not above zero */
    PW_SURVEY = 6,
    /* a position or length in metres with no cell in -16,384 to 16,383 */
    PW_NO_CELL = 7,
    /* a record length that is cut off after 1 byte, or that counts more bytes than are left */
    PW_SHORT = 8,
    /* an unknown record kind */
    PW_KIND = 9,
    /* a record length that is not that of its kind */
    PW_LENGTH = 10,
    /* a buffer with fewer free bytes than the record takes, or with fewer bytes than the file to be rescued */
    PW_FULL = 11,
    /* a buffer with fewer bytes than the picture takes */
    PW_BUFFER = 12,
    /* a picture whose header breaks the rules of raw PBM, or names another size than the sheet's */
    PW_HEADER = 13,
    /* a picture with fewer bytes after its header than its rows take */
    PW_PIXELS = 14,
    /* a slice length other than pitch x height */
    PW_SLICE = 15,
    /* a record length under 2, which leaves no room for a kind */
    PW_KINDLESS = 16,
    /* a work slice with fewer than width x height places */
    PW_WORK = 17,
    /* a start off the sheet */
    PW_START = 18,
    /* a tally with more or fewer places than the sheet has rows */
    PW_PLACES = 19,
    /* a tally in which the number of a row is not that of its nonzero cells */
    PW_TALLY = 20
};

/* Draws the line from (x0, y0) to (x1, y1). *cells is then its number of cells on the sheet. */
uint32_t pw_line(uint8_t *sheet, size_t len, uint32_t width, uint32_t height, uint32_t pitch, uint8_t ink,
                 int32_t x0, int32_t y0, int32_t x1, int32_t y1, uint32_t *cells, uint32_t box[4]);

/* Draws the ellipse of semi-axes a along x and b along y about (x, y): the cells nearest to it in their column or in their row.
 * However flat it is, it has no holes: neighbours on it touch by a side or a corner all round. With both 0 it is one cell.
 * To draw a circle of radius r, give r for a and for b. */
uint32_t pw_ellipse(uint8_t *sheet, size_t len, uint32_t width, uint32_t height, uint32_t pitch, uint8_t ink,
                    int32_t x, int32_t y, uint32_t a, uint32_t b, uint32_t box[4]);

/* Draws the quadratic Bezier curve with these control points, split into 2^s pieces. Its joined points need no limits of
 * their own: PW_COORDINATE speaks of the control points. */
uint32_t pw_curve(uint8_t *sheet, size_t len, uint32_t width, uint32_t height, uint32_t pitch, uint8_t ink,
                  int32_t x0, int32_t y0, int32_t x1, int32_t y1, int32_t x2, int32_t y2, uint32_t s, uint32_t box[4]);

/* Draws the cubic Bezier curve with these control points, likewise. */
uint32_t pw_cubic(uint8_t *sheet, size_t len, uint32_t width, uint32_t height, uint32_t pitch, uint8_t ink,
                  int32_t x0, int32_t y0, int32_t x1, int32_t y1, int32_t x2, int32_t y2, int32_t x3, int32_t y3,
                  uint32_t s, uint32_t box[4]);

/* Fills a territory: sets to the territory ink exactly the cells that can be reached from the start (x, y) by steps to a side
 * neighbour on the sheet without entering a cell of the boundary ink, judged on the sheet as it is lent. *cells is then how
 * many they are. If the start has the boundary ink, nothing is set and *cells is 0. The two inks may be equal. The start
 * has no limits of its own: one that is off the sheet, however far, is refused with PW_START.
 * No fill crosses an ellipse whose cells have the boundary ink, nor such a line from the sheet's left side to its right with
 * |dy| <= |dx|, or from top to bottom with |dx| <= |dy|; the ends may be at these sides or beyond them.
 * The work slice is room for the fill: width x height places or more, one for each cell. What it holds before does not
 * matter; after a done fill it holds whatever the fill left in it, and a refusal leaves it as it was. */
uint32_t pw_fill(uint8_t *sheet, size_t len, uint32_t width, uint32_t height, uint32_t pitch, int32_t x, int32_t y,
                 uint8_t boundary, uint8_t territory, uint32_t *work, size_t places, uint32_t *cells);

/* Lists the cells of the line from (x0, y0) to (x1, y1) in that order, x into xs and y into ys. *cells is then how many
 * they are; places after the last keep what they held. */
uint32_t pw_list(int32_t *xs, size_t nx, int32_t *ys, size_t ny,
                 int32_t x0, int32_t y0, int32_t x1, int32_t y1, uint32_t *cells);

/* A pen on the line from (x0, y0) to (x1, y1), and how many of its cells the pen has told. These numbers are the whole
 * pen: it may be copied and kept, and each copy goes on by itself. */
struct pw_pen {
    int32_t x0, y0, x1, y1;
    uint32_t told;
};

/* Begins a pen: *pen is then on the line from (x0, y0) to (x1, y1) and has told none of its cells. */
uint32_t pw_pen_begin(struct pw_pen *pen, int32_t x0, int32_t y0, int32_t x1, int32_t y1);

/* Asks a pen for the next cell, in the order of pw_list: while (pw_pen_next(&pen, &x, &y)) ...
 * Answers 1 with the cell in *x and *y and *pen one cell further; or 0 for finished, with *pen, *x and *y as they were.
 * A pen in a state that no beginning and asking leads to answers 0 too. */
uint32_t pw_pen_next(struct pw_pen *pen, int32_t *x, int32_t *y);

/* Draws a record file of n bytes. *value is then its number of records; or, of a refusal, the offset in the file of the
 * offending field's first byte: the length for 8, 10 and 16, the kind for 9, the first bad field for 2, 3 and 4; 0 for 1
 * and 15, which speak of the sheet. A file that is refused draws nothing. */
uint32_t pw_file(uint8_t *sheet, size_t len, uint32_t width, uint32_t height, uint32_t pitch,
                 const uint8_t *file, size_t n, uint64_t *value, uint32_t box[4]);

/* Writing a record file: each call appends one record, an ink and a figure, to a lent buffer of which *filled bytes are
 * filled, and *filled is then that many more. Every other byte of the buffer stays as it was. Written so from *filled 0 on,
 * the first *filled bytes are at all times a file that pw_file draws: the figures in the order in which they were written.
 * Limits are those of drawing. PW_FULL is given where fewer bytes are free than the record takes; none is free where
 * *filled is above len. A circle is record kind 2, with its radius; an ellipse is kind 3, of equal axes too. */

/* Appends the line from (x0, y0) to (x1, y1), in 13 bytes. */
uint32_t pw_write_line(uint8_t *buffer, size_t len, uint64_t *filled, uint8_t ink,
                       int32_t x0, int32_t y0, int32_t x1, int32_t y1);

/* Appends the circle of radius r about (x, y), in 11 bytes. */
uint32_t pw_write_circle(uint8_t *buffer, size_t len, uint64_t *filled, uint8_t ink, int32_t x, int32_t y, uint32_t r);

/* Appends the ellipse of semi-axes a and b about (x, y), in 13 bytes. */
uint32_t pw_write_ellipse(uint8_t *buffer, size_t len, uint64_t *filled, uint8_t ink,
                          int32_t x, int32_t y, uint32_t a, uint32_t b);

/* Appends the quadratic curve with these control points and s, in 18 bytes. */
uint32_t pw_write_curve(uint8_t *buffer, size_t len, uint64_t *filled, uint8_t ink,
                        int32_t x0, int32_t y0, int32_t x1, int32_t y1, int32_t x2, int32_t y2, uint32_t s);

/* Appends the cubic curve with these control points and s, in 22 bytes. */
uint32_t pw_write_cubic(uint8_t *buffer, size_t len, uint64_t *filled, uint8_t ink, int32_t x0, int32_t y0,
                        int32_t x1, int32_t y1, int32_t x2, int32_t y2, int32_t x3, int32_t y3, uint32_t s);

/* Rescues a damaged record file of n bytes: each record that reads well is copied to copy, unaltered and in order; one that is
 * refused though its length fits the bytes left is left out; and where the length does not fit them (PW_SHORT) the rescue
 * stops, since nobody can tell where the next record begins. Each record left out, and the place where it stopped, is listed in
 * the file's order: in offsets the offset of its first byte (not that of the offending field, which pw_file tells), in numbers
 * the number it is refused with.
 * *copied is then how many bytes were copied, which are a file that pw_file draws, and *listed how many places of each list were
 * filled: 0 exactly where the whole file is sound. Bytes and places after those keep what they held.
 * Lend n bytes or more for the copy (else PW_FULL), and n places or more in each list (else PW_ROOM). */
uint32_t pw_rescue(const uint8_t *file, size_t n, uint8_t *copy, size_t room, uint64_t *offsets, size_t no,
                   uint64_t *numbers, size_t nn, uint64_t *copied, uint64_t *listed);

/* Writes a sheet as a raw PBM picture: P4, a newline, the width, a blank, the height, a newline; then each row from the top down
 * in (width + 7) / 8 bytes, a bit for each cell, the highest bit leftmost: 1, which is black, where the cell is nonzero, and 0
 * elsewhere and in the bits after the last cell. *bytes is then how many bytes these are; bytes of the buffer after them keep
 * what they held. The sheet is only read, and its padding not at all.
 * Lend the picture's bytes or more (else PW_BUFFER): 13 + height * ((width + 7) / 8) are enough for every sheet. */
uint32_t pw_write_pbm(const uint8_t *sheet, size_t len, uint32_t width, uint32_t height, uint32_t pitch,
                      uint8_t *picture, size_t room, uint64_t *bytes);

/* Reads a raw PBM picture, lent with n bytes, onto a sheet of the same size: each cell is then 1 where its bit is 1, and 0
 * elsewhere. Bits after a row's last cell are ignored, and bytes after the last row are not looked at.
 * Its header (else PW_HEADER) is P4, one or more blanks, the width, one or more blanks, the height, and exactly one blank, after
 * which the rows begin. A blank is a space, TAB, LF, VT, FF or CR. The sizes are decimal, with any number of leading zeros, and
 * must be the sheet's. A comment, from a # through the next CR or LF, may stand anywhere before the last blank, before and inside
 * P4 and inside a number too. It is skipped whole and is no blank: "1#" newline "2" is 12, and after "2#" newline the blank that
 * ends the header is still to come. Where bytes of the rows are missing, PW_PIXELS is given.
 * These are the rules of Netpbm's page. Netpbm's tools (seen with 11.01) take a comment for the newline at its end, need no blank
 * after P4, and take any byte for the blank after a number; they refuse a comment before or inside P4, and a VT or FF that does
 * not follow a number. A comment right after a space, TAB, LF or CR is read alike by both. */
uint32_t pw_read_pbm(uint8_t *sheet, size_t len, uint32_t width, uint32_t height, uint32_t pitch,
                     const uint8_t *picture, size_t n);

/* The same figures in metres, by a survey: the origins east and north, and the size of a cell.
 *
 * Every program starts with doubles rounded to nearest and denormals kept. In another mode a position may be found in the
 * next cell: the library computes in the mode of the thread that calls it, and does not change it. */

/* Whether the calling thread computes doubles so: 1, or 0. For a controller to call once at its start, and again after
 * code that may have changed the mode. (Volatile: the sums are made when the program runs, whatever the compiler may assume.) */
static inline int pw_floats_sound(void) {
    /* a quarter of the step above 1.0, and the least double above 0.0, with and without all its digits */
    volatile double one = 1.0, quarter = 5.5511151231257827e-17;
    volatile double least = 4.9406564584124654e-324, normal = 2.2250738585072014e-308;
    volatile double below = one + quarter, above = one + 3.0 * quarter, halved = normal / 2.0;
    return below == one && above > one && least > 0.0 && halved > 0.0;
}

/* Draws the line from (x0, y0) to (x1, y1). *cells is then its number of cells on the sheet. */
uint32_t pw_line_metres(uint8_t *sheet, size_t len, uint32_t width, uint32_t height, uint32_t pitch, uint8_t ink,
                        double east, double north, double size,
                        double x0, double y0, double x1, double y1, uint32_t *cells, uint32_t box[4]);

/* Draws the ellipse of semi-axes a along x and b along y about (x, y), and a circle, as pw_ellipse does. */
uint32_t pw_ellipse_metres(uint8_t *sheet, size_t len, uint32_t width, uint32_t height, uint32_t pitch, uint8_t ink,
                           double east, double north, double size, double x, double y, double a, double b, uint32_t box[4]);

/* The same with a tally beside the sheet. Its length, places, must be the height. */

/* Counts a sheet afresh: whatever the tally held, it is then right. The sheet is only read. Never refused with PW_TALLY. */
uint32_t pw_tally(const uint8_t *sheet, size_t len, uint32_t width, uint32_t height, uint32_t pitch,
                  uint32_t *tally, size_t places);

/* Draw as pw_line, pw_ellipse, pw_curve and pw_cubic do, and keep the tally right. */
uint32_t pw_line_tallied(uint8_t *sheet, size_t len, uint32_t width, uint32_t height, uint32_t pitch,
                         uint32_t *tally, size_t places, uint8_t ink,
                         int32_t x0, int32_t y0, int32_t x1, int32_t y1, uint32_t *cells, uint32_t box[4]);
uint32_t pw_ellipse_tallied(uint8_t *sheet, size_t len, uint32_t width, uint32_t height, uint32_t pitch,
                            uint32_t *tally, size_t places, uint8_t ink,
                            int32_t x, int32_t y, uint32_t a, uint32_t b, uint32_t box[4]);
uint32_t pw_curve_tallied(uint8_t *sheet, size_t len, uint32_t width, uint32_t height, uint32_t pitch,
                          uint32_t *tally, size_t places, uint8_t ink,
                          int32_t x0, int32_t y0, int32_t x1, int32_t y1, int32_t x2, int32_t y2, uint32_t s, uint32_t box[4]);
uint32_t pw_cubic_tallied(uint8_t *sheet, size_t len, uint32_t width, uint32_t height, uint32_t pitch,
                          uint32_t *tally, size_t places, uint8_t ink,
                          int32_t x0, int32_t y0, int32_t x1, int32_t y1, int32_t x2, int32_t y2, int32_t x3, int32_t y3,
                          uint32_t s, uint32_t box[4]);

/* Draws a record file as pw_file does, and keeps the tally right. *value is the offset 0 with 19 and 20, as with 1 and 15: they
 * speak of the sheet and its tally. */
uint32_t pw_file_tallied(uint8_t *sheet, size_t len, uint32_t width, uint32_t height, uint32_t pitch,
                         uint32_t *tally, size_t places, const uint8_t *file, size_t n, uint64_t *value, uint32_t box[4]);

/* Draw as pw_line_metres and pw_ellipse_metres do, and keep the tally right. */
uint32_t pw_line_metres_tallied(uint8_t *sheet, size_t len, uint32_t width, uint32_t height, uint32_t pitch,
                                uint32_t *tally, size_t places, uint8_t ink, double east, double north, double size,
                                double x0, double y0, double x1, double y1, uint32_t *cells, uint32_t box[4]);
uint32_t pw_ellipse_metres_tallied(uint8_t *sheet, size_t len, uint32_t width, uint32_t height, uint32_t pitch,
                                   uint32_t *tally, size_t places, uint8_t ink, double east, double north, double size,
                                   double x, double y, double a, double b, uint32_t box[4]);

/* Fills a territory as pw_fill does, and keeps the tally right. The length of the work slice is room. */
uint32_t pw_fill_tallied(uint8_t *sheet, size_t len, uint32_t width, uint32_t height, uint32_t pitch,
                         uint32_t *tally, size_t places, int32_t x, int32_t y, uint8_t boundary, uint8_t territory,
                         uint32_t *work, size_t room, uint32_t *cells);

#ifdef __cplusplus
}
#endif

#endif
