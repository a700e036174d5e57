/* netpbm.c: the same pictures by libnetpbm, row by row, on files in memory. */
#include <netpbm/pbm.h>
#include <stdio.h>
#include <stdio_ext.h>
#include <stdlib.h>

#include "speed.h"

void netpbm_begin(void) {
    pm_init("speed", 0);
}

/* without locks: it reads byte by byte, and a lock for each takes longer than its cells */
static FILE *opened(void *picture, size_t bytes, const char *mode) {
    FILE *file = fmemopen(picture, bytes, mode);
    if (!file) {
        perror("speed");
        exit(1);
    }
    __fsetlocking(file, FSETLOCKING_BYCALLER);
    return file;
}

int netpbm_write(struct sheet *s, const struct figure *f) {
    static uint8_t room[PICTURE];
    FILE *file = opened(room, sizeof room, "w");
    int side = (int)s->side;
    (void)f;
    pbm_writepbminit(file, side, side, 0);
    for (uint32_t y = 0; y < s->side; y++)
        pbm_writepbmrow(file, s->bytes + (size_t)y * s->pitch, side, 0);
    s->picture = room;
    s->pictured = (size_t)ftell(file);
    fclose(file);
    return 1;
}

int netpbm_read(struct sheet *s, const struct figure *f) {
    FILE *file = opened((void *)s->picture, s->pictured, "r");
    int width, height, format;
    (void)f;
    pbm_readpbminit(file, &width, &height, &format);
    for (int y = 0; y < height; y++)
        pbm_readpbmrow(file, s->bytes + (size_t)y * s->pitch, width, format);
    fclose(file);
    return 1;
}
