/* desk.h: what the desk's programs share. */
#ifndef DESK_H
#define DESK_H

#include <stddef.h>
#include <stdint.h>

/* how many bytes of a file are taken */
enum { ROOM = 1 << 24 };

/* Says in one line what is wrong, and ends; each program has its own. */
_Noreturn void stop(const char *format, ...);

/* Has a reader that went away, and a limit on files, fail as a full disk does. */
void outlive(void);

/* Reads a file, or standard input for -, into file, and answers how many bytes it has. */
extern uint8_t file[ROOM + 1];
size_t read_file(const char *given);

/* Writes so many bytes to a descriptor, and answers whether that was done. */
int write_bytes(int to, const uint8_t *bytes, uint64_t n);

/* Room for so many, and for one where there are none: what is lent must not be null. */
void *lent(size_t count, size_t size);

#endif
