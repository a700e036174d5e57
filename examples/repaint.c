/* repaint.c: the wall of a control room, of which a drawing has only its rectangle painted again: copied from the map
 * to the screen's memory; prints how much was copied, whether the screen then shows the map, and the screen. */
#include <stdio.h>
#include <string.h>

#include "pistonwool.h"

/* the map has no padding; the screen's rows begin every 64 bytes */
enum { WIDTH = 60, HEIGHT = 14, CELLS = WIDTH * HEIGHT, MAP_PITCH = WIDTH, SCREEN_PITCH = 64 };
static uint8_t map[MAP_PITCH * HEIGHT], screen[SCREEN_PITCH * HEIGHT];

/* Copies a rectangle of the map to the screen, row by row; where there is none, its height is 0. */
static void repaint(const uint32_t box[4]) {
    for (uint32_t y = box[1]; y < box[1] + box[3]; y++)
        memcpy(screen + y * SCREEN_PITCH + box[0], map + y * MAP_PITCH + box[0], box[2]);
}

/* In how many cells the screen does not show the map. */
static int differing(void) {
    int differ = 0;
    for (int y = 0; y < HEIGHT; y++)
        for (int x = 0; x < WIDTH; x++)
            differ += screen[y * SCREEN_PITCH + x] != map[y * MAP_PITCH + x];
    return differ;
}

/* Repaints after a drawing with this reply, and prints how much that was. A refusal sets nothing and tells nothing. */
static void after(const char *drawing, uint32_t reply, const uint32_t box[4]) {
    int before = differing();
    printf("%-20s ", drawing);
    if (reply != PW_DONE) {
        printf("refused with %u; %d differ\n", reply, before);
        return;
    }
    repaint(box);
    printf("(%2u,%2u) %2u by %2u: %3u of %u cells copied; %2d differed before, %d after\n",
           box[0], box[1], box[2], box[3], box[2] * box[3], CELLS, before, differing());
}

/* Writes a file with a ring in the upper left corner and a line in the lower right one, and answers its length. */
static uint64_t write_file(uint8_t *file, size_t len) {
    uint64_t filled = 0;
    if (pw_write_circle(file, len, &filled, 'o', 3, 3, 2) != PW_DONE ||
        pw_write_line(file, len, &filled, '#', 52, 12, 58, 10) != PW_DONE)
        printf("the file is not written\n");
    return filled;
}

int main(void) {
    uint8_t file[24];
    uint64_t n = write_file(file, sizeof file), records = 0;
    uint32_t reply, cells = 0, box[4] = {0};

    memset(map, '.', sizeof map);
    memset(screen, '.', sizeof screen);
    reply = pw_line(map, sizeof map, WIDTH, HEIGHT, MAP_PITCH, '#', 12, 3, 19, 5, &cells, box);
    after("a short line", reply, box);
    /* only two arcs of it are on the map, and the rectangle holds both */
    reply = pw_ellipse(map, sizeof map, WIDTH, HEIGHT, MAP_PITCH, 'o', 34, 8, 10, 10, box);
    after("a storm ring", reply, box);
    reply = pw_curve(map, sizeof map, WIDTH, HEIGHT, MAP_PITCH, '~', 2, 9, 14, 16, 26, 7, 4, box);
    after("a curve", reply, box);
    /* one rectangle holds all its records; of figures that are far apart less is copied if they are drawn one by one */
    reply = pw_file(map, sizeof map, WIDTH, HEIGHT, MAP_PITCH, file, n, &records, box);
    after("a file", reply, box);
    reply = pw_ellipse(map, sizeof map, WIDTH, HEIGHT, MAP_PITCH, 'o', 200, 8, 10, 10, box);
    after("a ring off the map", reply, box);
    reply = pw_line(map, sizeof map, WIDTH, HEIGHT, MAP_PITCH, '#', 0, 0, 16384, 0, &cells, box);
    after("a line to 16,384", reply, box);

    for (int y = 0; y < HEIGHT; y++)
        printf("%.*s\n", WIDTH, (const char *)screen + y * SCREEN_PITCH);
    return 0;
}
