/* modes.c: what the figures in metres answer in each floating-point mode, and whether pw_floats_sound tells; the last line counts. */
#include <fenv.h>
#include <stdio.h>

#include "pistonwool.h"

#if defined __x86_64__
#include <xmmintrin.h>
/* flush results to zero and take denormal operands for zero */
static void flush(int on) { _mm_setcsr(on ? _mm_getcsr() | 0x8040u : _mm_getcsr() & ~0x8040u); }
#elif defined __aarch64__
static void flush(int on) {
    uint64_t mode;
    __asm__ volatile("mrs %0, fpcr" : "=r"(mode));
    mode = on ? mode | (1u << 24) : mode & ~(uint64_t)(1u << 24);
    __asm__ volatile("msr fpcr, %0" : : "r"(mode));
}
#else
#error "how denormals are flushed on this machine is not written here"
#endif

enum { WIDTH = 16 };
static int passed, failed;

/* the cell of a position on a row of cells, with the origin at 0.0: its column, or minus the number of the refusal */
static int cell(double position, double size) {
    uint8_t row[WIDTH] = {0};
    uint32_t cells = 0, box[4];
    int32_t reply = (int32_t)pw_line_metres(row, sizeof row, WIDTH, 1, WIDTH, 1, 0.0, 0.0, size,
                                            position, 0.0, position, 0.0, &cells, box);
    for (int x = 0; x < WIDTH && reply == PW_DONE; x++)
        if (row[x])
            return x;
    return -reply;
}

static void same(const char *mode, const char *what, int found, int expected) {
    if (found == expected) {
        passed++;
    } else {
        failed++;
        printf("modes: %s: %s is %d and not %d\n", mode, what, found, expected);
    }
}

/* in one mode: the cells of 0.3 and of 0.5 by cells of 0.1, of 0.0 by cells of 1e-310, and what the test says */
static void mode(const char *name, int third, int fifth, int tiny, int sound) {
    same(name, "the cell of 0.3", cell(0.3, 0.1), third);
    same(name, "the cell of 0.5", cell(0.5, 0.1), fifth);
    same(name, "a cell size of 1e-310", cell(0.0, 1e-310), tiny);
    same(name, "pw_floats_sound", pw_floats_sound(), sound);
}

int main(void) {
    /* -ffast-math starts a program with denormals flushed */
    flush(0);
    mode("to nearest", 2, 5, 0, 1);
    fesetround(FE_UPWARD);
    mode("upward", 3, 5, 0, 0);
    fesetround(FE_DOWNWARD);
    mode("downward", 2, 4, 0, 0);
    fesetround(FE_TOWARDZERO);
    mode("toward zero", 2, 4, 0, 0);
    fesetround(FE_TONEAREST);
    flush(1);
    mode("denormals flushed", 2, 5, -PW_SURVEY, 0);
    flush(0);
    mode("to nearest again", 2, 5, 0, 1);
    printf("%d passed, %d failed\n", passed, failed);
    return failed != 0;
}
