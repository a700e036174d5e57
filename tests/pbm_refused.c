/* pbm_refused.c: what is refused of a sheet that is written or of a picture that is read, and in which order; document 02, K2. */
#include <stdio.h>
#include <string.h>

#include "examples.h"
#include "pbm.h"
#include "pistonwool.h"

/* what can be wrong at once: the first of these is the reply, and of a picture that is written the last two are one, the room */
enum { SIZE = 1, SLICE = 2, THIRD = 4, FOURTH = 8, FAULTS = 16 };

/* sizes that no sheet has, for a slice of 5 x 2 bytes; of some the length is right and of others it is not */
static const uint32_t sizes[][3] = {{0, 2, 5}, {3, 0, 5}, {3, 2, 2}, {3, 2, 0}, {0, 0, 0}, {3, 2, 8193}, {4097, 2, 8192},
    {4097, 1, 4097}, {1, 4097, 1}, {4294967295, 2, 4294967295}, {3, 4294967295, 3}, {2147483651, 2, 5}, {3, 2, 4294967295}};
static const size_t lengths[] = {0, 1, 6, 9, 11, 20, SIZE_MAX};

enum { WIDTH = 3, HEIGHT = 2, PITCH = 5, WRITTEN = 9 };
static const char sound[] = "P4\n3 2\n\xa0\x40", unsound[] = "P4\n3 3\n\xa0\x40";

/* makes a call with these faults, writing or reading, and holds all that was lent to what it was */
static void refused(int writing, const uint32_t size[3], size_t len, unsigned faults) {
    static const uint32_t replies[][2] = {{PW_HEADER, PW_BUFFER}, {PW_PIXELS, PW_BUFFER}};
    struct page before;
    uint32_t due = faults & SIZE ? PW_SIZE : faults & SLICE ? PW_SLICE : replies[!(faults & THIRD)][writing], reply;
    size_t n = faults & FOURTH ? WRITTEN - 1 : WRITTEN;
    char said[96];
    lay_specks();
    if (!writing)
        memcpy(page.picture, faults & THIRD ? unsound : sound, sizeof sound);
    else if (faults & THIRD)
        n = 0;
    memcpy(&before, &page, sizeof before);
    if (writing)
        reply = pw_write_pbm(page.sheet, len, size[0], size[1], size[2], page.picture, n, &page.bytes);
    else
        reply = pw_read_pbm(page.sheet, len, size[0], size[1], size[2], page.picture, n);
    snprintf(said, sizeof said, "%s %u by %u, pitch %u, a slice of %zu, with faults %u", writing ? "writing" : "reading", size[0],
             size[1], size[2], len, faults);
    same(said, reply, due);
    same("a refusal leaves all as it was", memcmp(&page, &before, sizeof before), 0);
}

void pbm_refusals(void) {
    static const uint32_t size[] = {WIDTH, HEIGHT, PITCH};
    for (int writing = 0; writing < 2; writing++)
        for (unsigned rest = 0; rest < FAULTS; rest += THIRD) {
            for (size_t i = 0; i < sizeof sizes / sizeof *sizes; i++) {
                refused(writing, sizes[i], PITCH * HEIGHT, rest | SIZE);
                refused(writing, sizes[i], (size_t)sizes[i][1] * sizes[i][2], rest | SIZE);
                refused(writing, sizes[i], PITCH * HEIGHT + 1, rest | SIZE | SLICE);
            }
            for (size_t i = 0; i < sizeof lengths / sizeof *lengths; i++)
                refused(writing, size, lengths[i], rest | SLICE);
            if (rest)
                refused(writing, size, PITCH * HEIGHT, rest);
        }
}
