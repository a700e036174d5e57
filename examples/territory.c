/* territory.c: the territories of two controllers, on either side of a boundary, each filled from a start in it; prints the
 * sheet and how many cells each has. */
#include <stdio.h>
#include <string.h>

#include "pistonwool.h"

enum { WIDTH = 60, HEIGHT = 16, CELLS = WIDTH * HEIGHT };
enum { OPEN = '.', BOUNDARY = '#', HARBOUR = '-', HILL = '+' };

static uint8_t sheet[CELLS];
/* room for the fills, one place for each cell; it may be lent again and again, and need not be cleared */
static uint32_t work[CELLS];

/* Draws the boundary: a line across the whole sheet, and a ring about a substation that neither controller has. */
static uint32_t draw_boundary(void) {
    uint32_t cells = 0, box[4] = {0};
    uint32_t reply = pw_line(sheet, sizeof sheet, WIDTH, HEIGHT, WIDTH, BOUNDARY, 0, 13, 59, 2, &cells, box);
    return reply != PW_DONE ? reply : pw_ellipse(sheet, sizeof sheet, WIDTH, HEIGHT, WIDTH, BOUNDARY, 31, 7, 9, 4, box);
}

/* Fills what can be reached from (x, y) without entering a cell of the boundary. Steps go by sides, so that nothing leaks where
 * two cells of the line touch only by a corner. */
static uint32_t fill(int32_t x, int32_t y, uint8_t territory, uint32_t *cells) {
    return pw_fill(sheet, sizeof sheet, WIDTH, HEIGHT, WIDTH, x, y, BOUNDARY, territory, work, CELLS, cells);
}

int main(void) {
    uint32_t harbour = 0, hill = 0, none = 1, counted = 0;

    memset(sheet, OPEN, sizeof sheet);
    if (draw_boundary() != PW_DONE)
        return 1;
    /* a start in each territory; where in it does not matter */
    if (fill(0, 0, HARBOUR, &harbour) != PW_DONE || fill(59, 15, HILL, &hill) != PW_DONE)
        return 1;

    for (int y = 0; y < HEIGHT; y++)
        printf("%.*s\n", WIDTH, (const char *)sheet + y * WIDTH);
    printf("the harbour's territory has %u cells, the hill's %u\n", harbour, hill);
    for (int i = 0; i < CELLS; i++)
        counted += sheet[i] == HARBOUR || sheet[i] == HILL;
    printf("cells of the sheet that have one of their inks: %u\n", counted);

    /* from a cell of the boundary nothing can be reached */
    if (fill(0, 13, HILL, &none) != PW_DONE)
        return 1;
    printf("a start on the boundary fills %u cells\n", none);

    /* nothing is tested before a call: what cannot be filled is refused by number, and nothing is written */
    printf("a start at (60,0) is refused with %u\n", fill(60, 0, HARBOUR, &none));
    printf("a work slice one place short is refused with %u\n",
           pw_fill(sheet, sizeof sheet, WIDTH, HEIGHT, WIDTH, 0, 0, BOUNDARY, HARBOUR, work, CELLS - 1, &none));
    return 0;
}
