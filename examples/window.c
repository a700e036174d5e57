/* window.c: a map drawn in a window of a wall display, whose memory begins each row on a boundary of its own; prints the
 * display's memory, with its padding, and whether anything but the window's cells changed. */
#include <stdio.h>
#include <string.h>

#include "pistonwool.h"

/* the display: 40 by 12 cells, a row every 48 bytes */
enum { WIDTH = 40, HEIGHT = 12, PITCH = 48 };
/* the window in it: 24 by 9 cells from (10, 2) on */
enum { LEFT = 10, TOP = 2, WIDE = 24, HIGH = 9 };

/* Draws the boundary and the storm ring of a map whose sheet is lent. */
static uint32_t draw_map(uint8_t *sheet, size_t len, uint32_t width, uint32_t height, uint32_t pitch) {
    uint32_t cells = 0, box[4] = {0}, reply = pw_line(sheet, len, width, height, pitch, '#', 0, 7, 23, 0, &cells, box);
    return reply != PW_DONE ? reply : pw_ellipse(sheet, len, width, height, pitch, 'o', 4, 4, 6, 6, box);
}

int main(void) {
    static uint8_t wall[PITCH * HEIGHT], map[WIDE * HIGH];
    uint32_t reply, differ = 0, outside = 0;

    for (int i = 0; i < PITCH * HEIGHT; i++)
        wall[i] = i % PITCH < WIDTH ? '.' : '~';
    memset(map, '.', sizeof map);

    /* the window is a sheet that begins at its first cell and has the display's pitch */
    reply = draw_map(wall + TOP * PITCH + LEFT, PITCH * HIGH, WIDE, HIGH, PITCH);
    if (reply != PW_DONE)
        return 1;
    for (int y = 0; y < HEIGHT; y++)
        printf("%.*s\n", PITCH, (const char *)wall + y * PITCH);

    /* the same map on a sheet of its own, with no padding */
    if (draw_map(map, sizeof map, WIDE, HIGH, WIDE) != PW_DONE)
        return 1;
    for (int y = 0; y < HEIGHT; y++)
        for (int x = 0; x < PITCH; x++) {
            int within = LEFT <= x && x < LEFT + WIDE && TOP <= y && y < TOP + HIGH;
            if (within)
                differ += wall[y * PITCH + x] != map[(y - TOP) * WIDE + (x - LEFT)];
            else
                outside += wall[y * PITCH + x] != (x < WIDTH ? '.' : '~');
        }
    printf("cells in which the window differs from a sheet of its own: %u\n", differ);
    printf("bytes that changed outside the window: %u\n", outside);

    /* a pitch below the width, and a length that leaves out the end of the last row, are refused by number */
    printf("a pitch of 23 is refused with %u\n", draw_map(map, 23 * HIGH, WIDE, HIGH, 23));
    printf("a window without the end of its last row is refused with %u\n",
           draw_map(wall, PITCH * (HIGH - 1) + WIDE, WIDE, HIGH, PITCH));
    return 0;
}
