/* examples.h: what the parts of the examples share. */
#ifndef EXAMPLES_H
#define EXAMPLES_H

#include <stddef.h>
#include <stdint.h>

/* counts an example, and says of one that fails what was found and expected */
void same(const char *example, long long found, long long expected);

/* a buffer for records, and how many of its bytes are filled; append lends len of them for a record with ink 1, by its
 * kind and its numbers, and answers the reply */
extern uint8_t buffer[96];
extern uint64_t filled;
uint32_t append(int kind, const int64_t *n, size_t len);

/* the rectangles that drawings tell */
void repaints(void);
/* the tallies that are kept beside sheets */
void tallies(void);
/* the pictures that sheets are written as and read from */
void pictures(void);

#endif
