/* picture.c: a sheet that goes to a wall display as a raw PBM picture, and one that comes back from the survey office with a
 * comment in its header; prints that header, the sheet that is read, and what becomes of pictures that do not fit. */
#include <stdio.h>
#include <string.h>

#include "pistonwool.h"

enum { WIDTH = 44, HEIGHT = 9, CELLS = WIDTH * HEIGHT };
static const char comment[] = "# scanned by the survey office\n";
/* 13 bytes are enough for every header, and a row takes a bit for each cell */
static uint8_t sheet[CELLS], scan[CELLS], picture[13 + HEIGHT * ((WIDTH + 7) / 8)], returned[sizeof picture + sizeof comment];

/* The office's scan: the picture with a comment after its first line. Answers its length. */
static size_t scanned(size_t n) {
    memcpy(returned, picture, 3);
    memcpy(returned + 3, comment, sizeof comment - 1);
    memcpy(returned + 3 + sizeof comment - 1, picture + 3, n - 3);
    return n + sizeof comment - 1;
}

int main(void) {
    uint32_t replies = 0, cells = 0, box[4] = {0};
    uint64_t bytes = 0;

    replies |= pw_line(sheet, CELLS, WIDTH, HEIGHT, WIDTH, '#', 0, 7, 43, 1, &cells, box);
    replies |= pw_ellipse(sheet, CELLS, WIDTH, HEIGHT, WIDTH, 'o', 20, 4, 9, 3, box);
    /* out as a picture, in which every ink but 0 is black, and back onto a sheet of the same size */
    replies |= pw_write_pbm(sheet, CELLS, WIDTH, HEIGHT, WIDTH, picture, sizeof picture, &bytes);
    size_t n = scanned(bytes);
    replies |= pw_read_pbm(scan, CELLS, WIDTH, HEIGHT, WIDTH, returned, n);
    if (replies != PW_DONE)
        return 1;

    printf("%u bytes are written, and %zu come back:\n", (unsigned)bytes, n);
    printf("%.*s", 3 + (int)sizeof comment - 1 + 5, (const char *)returned);
    for (int y = 0; y < HEIGHT; y++) {
        for (int x = 0; x < WIDTH; x++)
            putchar(scan[y * WIDTH + x] == 1 ? '#' : '.');
        putchar('\n');
    }

    /* a picture of another size, and one that is cut off: the sheet stays as it was */
    memcpy(sheet, scan, CELLS);
    printf("with a row too many it is refused with %u", pw_read_pbm(scan, CELLS - WIDTH, WIDTH, HEIGHT - 1, WIDTH, returned, n));
    printf(", and with a byte missing with %u", pw_read_pbm(scan, CELLS, WIDTH, HEIGHT, WIDTH, returned, n - 1));
    printf("; the sheet is %s\n", memcmp(sheet, scan, CELLS) ? "another" : "as it was");
    return 0;
}
