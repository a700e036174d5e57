/* boundary.c: one boundary drawn from each of its ends, as two controllers draw it, listed, and followed by a pen; prints the
 * sheet and whether the two agree. */
#include <stdio.h>
#include <string.h>

#include "pistonwool.h"

enum { WIDTH = 16, HEIGHT = 8 };

int main(void) {
    uint8_t harbour[WIDTH * HEIGHT] = {0}, hill[WIDTH * HEIGHT] = {0};
    int32_t xs[32], ys[32];
    uint32_t cells = 0, box[4] = {0};
    struct pw_pen pen = {0};
    int32_t x = 0, y = 0;

    /* once at the start: figures in metres, of which this program has none, need this of the thread that draws them */
    if (!pw_floats_sound())
        return 1;
    if (pw_line(harbour, sizeof harbour, WIDTH, HEIGHT, WIDTH, 1, 0, 7, 15, 0, &cells, box) != PW_DONE)
        return 1;
    if (pw_line(hill, sizeof hill, WIDTH, HEIGHT, WIDTH, 1, 15, 0, 0, 7, &cells, box) != PW_DONE)
        return 1;
    if (pw_list(xs, 32, ys, 32, 0, 7, 15, 0, &cells) != PW_DONE)
        return 1;

    for (int y = 0; y < HEIGHT; y++) {
        for (int x = 0; x < WIDTH; x++)
            putchar(harbour[y * WIDTH + x] ? '#' : '.');
        putchar('\n');
    }
    printf("%u cells, from (%d,%d) to (%d,%d)\n", cells, xs[0], ys[0], xs[cells - 1], ys[cells - 1]);
    printf("the two sheets %s\n", memcmp(harbour, hill, sizeof hill) ? "differ" : "are the same");

    /* an operator's screen follows the boundary cell by cell */
    if (pw_pen_begin(&pen, 0, 7, 15, 0) != PW_DONE)
        return 1;
    printf("a pen follows it:");
    while (pw_pen_next(&pen, &x, &y))
        printf(" (%d,%d)", x, y);
    putchar('\n');

    /* nothing is tested before a call: what cannot be drawn is refused by number, and nothing is written */
    uint32_t far = pw_line(hill, sizeof hill, WIDTH, HEIGHT, WIDTH, 1, 0, 0, 16384, 0, &cells, box);
    printf("an end at 16,384 is refused with %u\n", far);
    uint32_t cut = pw_line(hill, sizeof hill - 1, WIDTH, HEIGHT, WIDTH, 1, 0, 0, 1, 0, &cells, box);
    printf("a sheet one byte short is refused with %u\n", cut);

    /* a record file says which field is wrong: here the last of a line, its y1 */
    const uint8_t file[] = {11, 0, 1, 0, 1, 0, 0, 7, 0, 15, 0, 0, 64};
    uint64_t value = 0;
    uint32_t number = pw_file(hill, sizeof hill, WIDTH, HEIGHT, WIDTH, file, sizeof file, &value, box);
    printf("a file with an end at 16,384 is refused with %u at offset %u\n", number, (unsigned)value);
    return 0;
}
