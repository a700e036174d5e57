/* rescue.c: a mebibyte of records of all kinds, of which one in thirty is damaged, rescued by the library and by plain C. */
#include <stdio.h>
#include <stdlib.h>
#include <string.h>

#include "pistonwool.h"
#include "table.h"

enum { BYTES = 1 << 20, ONE_IN = 30 };

static uint8_t file[BYTES];
static uint64_t length;

/* what a rescue is lent and tells, ours and that of C */
static struct rescued {
    uint8_t copy[BYTES];
    uint64_t offsets[BYTES], numbers[BYTES], copied, listed;
} ours, plain;

/* damages a record that fits: another kind's length, no kind, its first coordinate or its last field outside the limits */
static void damage(uint8_t *record, size_t size, enum kind kind) {
    switch (between(0, 3)) {
    case 0: record[2] = (uint8_t)(kind % CUBIC + 1); break;
    case 1: record[2] = 9; break;
    case 2: record[6] ^= 0x40; break;
    default: record[size - 1] ^= 0x40; break;
    }
}

/* fills the file, and answers how many records it has */
static size_t fill(void) {
    size_t count = 0;
    for (;; count++) {
        struct figure f = any((enum kind)between(LINE, CUBIC));
        uint64_t at = length;
        if (plain_append(file, sizeof file, &length, &f) != PW_DONE)
            return count;
        if (between(1, ONE_IN) == 1)
            damage(file + at, length - at, f.kind);
    }
}

static int rescue(struct sheet *none, const struct figure *f) {
    struct rescued *r = &ours;
    (void)none, (void)f;
    done(pw_rescue(file, length, r->copy, BYTES, r->offsets, BYTES, r->numbers, BYTES, &r->copied, &r->listed));
    return 1;
}

static int rescue_plainly(struct sheet *none, const struct figure *f) {
    struct rescued *r = &plain;
    (void)none, (void)f;
    done(plain_rescue(file, length, r->copy, BYTES, r->offsets, BYTES, r->numbers, BYTES, &r->copied, &r->listed));
    return 1;
}

/* stops where the library and C do not copy and list the same, or leave nothing out */
static void same_rescue(void) {
    rescue(NULL, NULL);
    rescue_plainly(NULL, NULL);
    if (memcmp(&ours, &plain, sizeof ours) != 0 || ours.listed == 0) {
        fprintf(stderr, "speed: C rescues otherwise than the library\n");
        exit(1);
    }
}

void rescue_row(void) {
    static const struct figure none = {.kind = LINE};
    struct way ways[WAYS];
    size_t count = fill();
    same_rescue();
    for (size_t w = 0; w < WAYS; w++)
        ways[w] = (struct way){.draw = unable, .figures = 1};
    ways[OURS].draw = rescue;
    ways[IN_C].draw = rescue_plainly;
    row("rescuing a damaged file", "record", NULL, ways, &none, count);
}
