/* libgd.c: the same figures by libgd, on a palette image of one byte a cell. */
#include <gd.h>

#include "speed.h"

static gdImagePtr image;

void libgd_begin(uint32_t side) {
    image = gdImageCreate((int)side, (int)side);
    gdImageColorAllocate(image, 255, 255, 255);
    gdImageColorAllocate(image, 0, 0, 0);
}

void libgd_end(void) {
    gdImageDestroy(image);
}

int libgd(struct sheet *s, const struct figure *f) {
    (void)s;
    switch (f->kind) {
    case LINE: gdImageLine(image, f->x0, f->y0, f->x1, f->y1, 1); return 1;
    case CIRCLE: gdImageEllipse(image, f->x0, f->y0, 2 * (int)f->a, 2 * (int)f->a, 1); return 1;
    case ELLIPSE: gdImageEllipse(image, f->x0, f->y0, 2 * (int)f->a, 2 * (int)f->b, 1); return 1;
    case CURVE:
    case CUBIC:
    case LISTING:
    case FILL: return 0; /* a fill begins on a fresh copy of the sheet, which the image is not */
    }
    return 0;
}
