/* tally.c: the desk's question, how many commanded cells each row holds: a list beside the sheet, which each drawing and fill
 * keeps right. Prints the sheet with the list at its side, and what becomes of a list that is wrong. */
#include <stdio.h>
#include <string.h>

#include "pistonwool.h"

enum { WIDTH = 56, HEIGHT = 12, CELLS = WIDTH * HEIGHT };
/* only nonzero cells are tallied, so a cell that nobody commands is 0 */
enum { NOBODY = 0, BOUNDARY = '#', HARBOUR = '-', HILL = '+' };

static uint8_t sheet[CELLS];
static uint32_t work[CELLS], tally[HEIGHT];

/* Draws the boundary: a line across the whole sheet, and a ring about a substation that neither controller has. */
static uint32_t draw_boundary(uint8_t ink) {
    uint32_t cells = 0, box[4] = {0}, reply;
    reply = pw_line_tallied(sheet, CELLS, WIDTH, HEIGHT, WIDTH, tally, HEIGHT, ink, 0, 10, 55, 1, &cells, box);
    if (reply != PW_DONE)
        return reply;
    return pw_ellipse_tallied(sheet, CELLS, WIDTH, HEIGHT, WIDTH, tally, HEIGHT, ink, 29, 5, 8, 3, box);
}

/* Fills a territory from a start in it, and answers how many cells it has; the reply is kept beside those before. */
static uint32_t fill(int32_t x, int32_t y, uint8_t ink, uint32_t *replies) {
    uint32_t cells = 0;
    *replies |= pw_fill_tallied(sheet, CELLS, WIDTH, HEIGHT, WIDTH, tally, HEIGHT, x, y, BOUNDARY, ink, work, CELLS, &cells);
    return cells;
}

int main(void) {
    uint8_t held[CELLS];
    uint32_t sum = 0, box[4] = {0};

    /* once at the start; from here on each call leaves the list right */
    uint32_t replies = pw_tally(sheet, CELLS, WIDTH, HEIGHT, WIDTH, tally, HEIGHT);
    replies |= draw_boundary(BOUNDARY);
    uint32_t harbour = fill(0, 0, HARBOUR, &replies), hill = fill(55, 11, HILL, &replies);
    /* its cells are commanded by nobody: drawn again with ink 0 they count no more */
    replies |= draw_boundary(NOBODY);
    if (replies != PW_DONE)
        return 1;

    for (int y = 0; y < HEIGHT; y++) {
        for (int x = 0; x < WIDTH; x++)
            putchar(sheet[y * WIDTH + x] ? sheet[y * WIDTH + x] : '.');
        printf(" %2u\n", tally[y]);
        sum += tally[y];
    }
    printf("the harbour commands %u cells, the hill %u, and the rows %u together\n", harbour, hill, sum);

    /* a ring drawn past the list leaves it wrong: the next call that takes it says so, and sets nothing */
    if (pw_ellipse(sheet, CELLS, WIDTH, HEIGHT, WIDTH, NOBODY, 10, 3, 2, 2, box) != PW_DONE)
        return 1;
    memcpy(held, sheet, CELLS);
    printf("with a wrong list a boundary is refused with %u", draw_boundary(BOUNDARY));
    printf(", and the sheet is %s\n", memcmp(held, sheet, CELLS) ? "another" : "as it was");
    printf("counting afresh is answered with %u", pw_tally(sheet, CELLS, WIDTH, HEIGHT, WIDTH, tally, HEIGHT));
    printf(", and then the boundary with %u\n", draw_boundary(BOUNDARY));
    return 0;
}
