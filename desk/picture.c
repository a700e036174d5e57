/* picture.c: draws a record file on a blank sheet and writes it on standard output as raw PBM; ./picture builds it, tests its
 * words and says what a refusal means, and ./picture --help tells how. */
#define _GNU_SOURCE
#include <errno.h>
#include <inttypes.h>
#include <stdarg.h>
#include <stdio.h>
#include <stdlib.h>
#include <string.h>
#include <unistd.h>

#include "desk.h"
#include "pistonwool.h"

_Noreturn void stop(const char *format, ...) {
    va_list words;
    va_start(words, format);
    fputs("picture: ", stderr);
    vfprintf(stderr, format, words);
    va_end(words);
    fputc('\n', stderr);
    exit(1);
}

int main(int argc, char **argv) {
    if (argc != 4)
        stop("it takes three words, WIDTH, HEIGHT and FILE");
    outlive();
    uint32_t width = (uint32_t)strtoul(argv[1], NULL, 10), height = (uint32_t)strtoul(argv[2], NULL, 10), box[4] = {0};
    size_t n = read_file(argv[3]), cells = (size_t)width * height, room = 13 + (size_t)height * ((width + 7) / 8);
    uint8_t *sheet = lent(cells, 1), *picture = lent(room, 1);
    uint64_t value = 0, bytes = 0;
    memset(sheet, 0, cells);
    uint32_t reply = pw_file(sheet, cells, width, height, width, file, n, &value, box);
    if (reply == PW_DONE) {
        value = 0;
        reply = pw_write_pbm(sheet, cells, width, height, width, picture, room, &bytes);
    }
    if (reply != PW_DONE) {
        fprintf(stderr, "refused %" PRIu32 " at %" PRIu64 "\n", reply, value);
        return 1;
    }
    if (!write_bytes(STDOUT_FILENO, picture, bytes) || close(STDOUT_FILENO) != 0)
        stop("the picture cannot be written: %s", strerror(errno));
    return 0;
}
