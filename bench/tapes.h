/* The tapes that are measured: whole numbers only, so that they are the same on every machine. */
#ifndef TAPES_H
#define TAPES_H

#include <stddef.h>
#include <stdint.h>

enum { LONGEST_TAPE = 600 * 7 + 5 + 13 + 64 * 9 + 17 };

struct tape {
    uint8_t bytes[LONGEST_TAPE];
    size_t length;
};

/* What is wrong with the close of a tape: nothing, its closing point a hundred feet off (9), its azimuth 14 degrees off
 * (8), its angle out of range (4). */
enum fault { NO_FAULT, WRONG_POINT, WRONG_AZIMUTH, WRONG_CLOSE };

/* A loop of 2, 4, .. 64 legs after 0 to 600 rows, or a line of one leg. */
struct tape traverse_tape(uint32_t legs, uint32_t rows, enum fault fault);

/* A tape of one byte, which is no kind. */
struct tape no_tape(void);

#endif
