/* desk.c: what the desk's programs share: reading a whole file, writing all bytes, and room to lend. */
#define _GNU_SOURCE
#include <errno.h>
#include <fcntl.h>
#include <signal.h>
#include <stdlib.h>
#include <string.h>
#include <unistd.h>

#include "desk.h"

uint8_t file[ROOM + 1]; /* with a byte more, which shows that a file is too large */

void outlive(void) {
    signal(SIGPIPE, SIG_IGN);
    signal(SIGXFSZ, SIG_IGN);
}

size_t read_file(const char *given) {
    int standard = strcmp(given, "-") == 0;
    const char *name = standard ? "standard input" : given;
    int from = standard ? STDIN_FILENO : open(given, O_RDONLY | O_CLOEXEC);
    size_t n = 0;
    ssize_t got = from;
    while (got >= 0 || errno == EINTR) {
        got = read(from, file + n, sizeof file - n);
        if (got == 0)
            break;
        n += got > 0 ? (size_t)got : 0;
    }
    if (got < 0)
        stop("%s cannot be read: %s", name, strerror(errno));
    if (n > ROOM)
        stop("%s has more than %d bytes, for which there is no room; nothing is written", name, ROOM);
    close(from);
    return n;
}

int write_bytes(int to, const uint8_t *bytes, uint64_t n) {
    ssize_t put = 0;
    for (uint64_t done = 0; put >= 0 && done < n; done += put > 0 ? (uint64_t)put : 0)
        put = write(to, bytes + done, n - done);
    return put >= 0;
}

void *lent(size_t count, size_t size) {
    void *room = malloc((count + (count == 0)) * size);
    if (!room)
        stop("there is not enough memory; nothing is written");
    return room;
}
