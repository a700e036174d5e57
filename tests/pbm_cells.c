/* pbm_cells.c: for tests/pbm, sheets through the library, with their cells as text, "3 2: 101 010" for 3 by 2:
 *     pbm_cells write WIDTH HEIGHT SEED FILE    writes a sheet of random inks as a picture, and prints its cells
 *     pbm_cells read WIDTH HEIGHT <FILE         reads a picture, and prints its cells, or "refused 13"
 * The sheets have padding, which is noise and stays. */
#include <stdio.h>
#include <stdlib.h>
#include <string.h>

#include "pistonwool.h"

enum { MOST = 1 << 22, PADDING = 3, NOISE = 170 };
static uint8_t sheet[MOST], picture[MOST];
static uint32_t width, height, pitch;

static void print_cells(void) {
    printf("%u %u:", width, height);
    for (uint32_t y = 0; y < height; y++) {
        putchar(' ');
        for (uint32_t x = 0; x < width; x++)
            putchar(sheet[y * pitch + x] ? '1' : '0');
    }
    putchar('\n');
}

static int write_sheet(const char *name) {
    uint64_t bytes = 0;
    for (uint32_t y = 0; y < height; y++)
        for (uint32_t x = 0; x < width; x++)
            sheet[y * pitch + x] = (uint8_t)(rand() & 1 ? 0 : rand() % 256);
    if (pw_write_pbm(sheet, (size_t)pitch * height, width, height, pitch, picture, sizeof picture, &bytes) != PW_DONE)
        return 1;
    FILE *file = fopen(name, "wb");
    if (!file || fwrite(picture, 1, bytes, file) != bytes || fclose(file) != 0)
        return 1;
    print_cells();
    return 0;
}

static int read_sheet(void) {
    size_t n = fread(picture, 1, sizeof picture, stdin), whole = 0;
    uint32_t reply = pw_read_pbm(sheet, (size_t)pitch * height, width, height, pitch, picture, n);
    for (size_t i = 0; i < (size_t)pitch * height; i++)
        whole += sheet[i] == NOISE || (reply == PW_DONE && i % pitch < width && sheet[i] <= 1);
    if (whole != (size_t)pitch * height)
        puts("padding is set, a cell is neither 1 nor 0, or a refusal sets one");
    else if (reply != PW_DONE)
        printf("refused %u\n", reply);
    else
        print_cells();
    return 0;
}

int main(int argc, char **argv) {
    if (argc < 4)
        return 2;
    width = (uint32_t)atoi(argv[2]), height = (uint32_t)atoi(argv[3]), pitch = width + PADDING;
    if ((size_t)pitch * height > MOST)
        return 2;
    memset(sheet, NOISE, sizeof sheet);
    if (argc == 4)
        return read_sheet();
    srand((unsigned)atoi(argv[4]));
    return write_sheet(argv[5]);
}
