/* pbm.h: what the examples of pictures share: all that is lent to the two calls, and how it is laid out. */
#ifndef PBM_H
#define PBM_H

#include <stddef.h>
#include <stdint.h>

enum { LENT = 256, SPECKS = 170 };

/* all that is lent, so that one comparison tells whether a call left it as it was */
extern struct page {
    uint8_t sheet[LENT], picture[LENT];
    uint64_t bytes;
} page;

/* a sheet of small size within the page */
struct shape {
    uint32_t width, height, pitch;
};
size_t length(struct shape s);
/* how many bytes its rows take in a picture */
size_t rows_size(struct shape s);

/* lays noise over all that is lent */
void lay_specks(void);
/* makes a call on a sheet of this shape, with so many bytes lent for the picture */
uint32_t write_page(struct shape s, size_t room);
uint32_t read_page(struct shape s, size_t n);
/* reads a picture of these bytes onto a sheet of noise, and holds it to this reply: where that is PW_DONE, to the cells that the
 * bytes from rows on say, with padding and all bytes of the picture as they were, and else to all as it was */
void reads(const char *example, struct shape s, const void *bytes, size_t n, uint32_t reply, size_t rows);
/* a picture whose header is the first bytes of these, cut off after each of its n bytes */
void cut_off(struct shape s, const void *bytes, size_t header, size_t n);

/* headers; what is refused, and in which order */
void pbm_headers(void);
void pbm_refusals(void);

#endif
