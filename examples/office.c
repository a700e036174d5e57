/* office.c: a district written as a record file, figure by figure, as a survey office has it on paper; prints the sheet that the
 * file draws, and what a figure that is refused and a buffer that is full leave of it. */
#include <stdio.h>
#include <string.h>

#include "pistonwool.h"

enum { WIDTH = 48, HEIGHT = 12, CORNERS = 5 };

/* the lent buffer, and how many bytes of it are filled: these are the file */
static uint8_t file[192];
static uint64_t filled;

/* Appends the district. A refusal changes nothing, so the replies may be looked at together: all are PW_DONE, or one is not. */
static uint32_t write_district(void) {
    static const int32_t corners[CORNERS][2] = {{5, 8}, {3, 3}, {17, 0}, {40, 2}, {43, 7}};
    uint32_t replies = PW_DONE;

    for (int i = 1; i < CORNERS; i++)
        replies |= pw_write_line(file, sizeof file, &filled, '#', corners[i - 1][0], corners[i - 1][1],
                                 corners[i][0], corners[i][1]);
    /* a ring about a substation, and the substation */
    replies |= pw_write_ellipse(file, sizeof file, &filled, 'o', 27, 5, 8, 3);
    replies |= pw_write_circle(file, sizeof file, &filled, 'o', 27, 5, 0);
    /* the shore at the boundary's one end, and the coast from there to its other end */
    replies |= pw_write_curve(file, sizeof file, &filled, '~', -1, 7, 8, 7, 14, 11, 4);
    replies |= pw_write_cubic(file, sizeof file, &filled, '~', 14, 11, 24, 5, 30, 14, 48, 6, 5);
    return replies;
}

/* Draws the file on a clear sheet, and answers how many records it has. */
static uint64_t draw_file(uint8_t *sheet) {
    uint64_t records = 0;
    uint32_t box[4] = {0};
    memset(sheet, '.', WIDTH * HEIGHT);
    if (pw_file(sheet, WIDTH * HEIGHT, WIDTH, HEIGHT, WIDTH, file, filled, &records, box) != PW_DONE)
        printf("the file is refused\n");
    return records;
}

int main(void) {
    static uint8_t sheet[WIDTH * HEIGHT], before[sizeof file];
    uint32_t reply, more = 0;
    uint64_t records, bytes;

    if (write_district() != PW_DONE)
        return 1;
    records = draw_file(sheet);
    for (int y = 0; y < HEIGHT; y++)
        printf("%.*s\n", WIDTH, (const char *)sheet + y * WIDTH);
    printf("%u records in %u bytes\n", (unsigned)records, (unsigned)filled);

    /* nothing is tested before a call: what no file may hold is refused by number, as it would be when it is drawn */
    memcpy(before, file, sizeof file);
    bytes = filled;
    reply = pw_write_circle(file, sizeof file, &filled, 'o', 16384, 5, 3);
    printf("a centre at 16,384 is refused with %u; the file has %u bytes, and they %s\n", reply, (unsigned)filled,
           bytes != filled || memcmp(before, file, sizeof file) != 0 ? "differ" : "are the same");

    /* when the buffer is full, what is in it is a file as before: it can be saved, and the next one begun with the figure */
    while ((reply = pw_write_line(file, sizeof file, &filled, '#', 5, 8, 43, 7)) == PW_DONE)
        more++;
    printf("after %u more lines, with %u bytes free, a line is refused with %u\n", more, (unsigned)(sizeof file - filled), reply);
    printf("the full buffer is a file of %u records\n", (unsigned)draw_file(sheet));
    return 0;
}
