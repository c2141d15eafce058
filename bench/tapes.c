#include "tapes.h"

#include <inttypes.h>
#include <stdio.h>
#include <stdlib.h>

#include "vastrudhil.h"

enum { CIRCLE = 12960000, HALF_CIRCLE = CIRCLE / 2 };
enum { FIRST_MINUTE = 2400, ELEVATION = 1196, NORTH = 60000000, EAST = 200000000, MARK = 4455073 };

static void sure(uint32_t number) {
    if (number) {
        fprintf(stderr, "a record of the bench's own tapes is refused with %" PRIu32 "\n", number);
        exit(1);
    }
}

/* -most to most, the same for the same i, and uneven enough for a piece of land and for what measuring misses. */
static int32_t varied(uint32_t i, uint32_t most) {
    uint32_t mixed = (i + 1) * UINT32_C(2654435761);
    mixed = (mixed ^ mixed >> 15) * UINT32_C(2246822519);
    return (int32_t)((mixed ^ mixed >> 13) % (2 * most + 1)) - (int32_t)most;
}

/* Scale factors fall and rise again across a zone. */
static uint32_t row_factor(uint32_t row) {
    return 9999400 + 5 * (row < 300 ? 300 - row : row - 300);
}

struct side {
    uint32_t azimuth, distance;
};

/* Side k of the polygon. The second half of the sides are the first half walked back, so that it closes without a
 * sine. One leg alone runs north. */
static struct side side(uint32_t k, uint32_t legs) {
    if (legs == 1)
        return (struct side){HALF_CIRCLE, 1000000};
    uint32_t half = legs / 2, like = k % half, spread = CIRCLE / legs;
    uint32_t azimuth = 700001 + like * spread + (uint32_t)varied(like, spread / 3);
    uint32_t distance = 700000 + (uint32_t)varied(like + 100, 400000);
    return (struct side){(azimuth + (k < half ? 0 : HALF_CIRCLE)) % CIRCLE, distance};
}

static uint32_t turned(uint32_t from, uint32_t to) {
    return (to + CIRCLE - from) % CIRCLE;
}

struct tape traverse_tape(uint32_t legs, uint32_t rows, enum fault fault) {
    struct tape t = {.length = 0};
    uint8_t *out = t.bytes;
    size_t room = sizeof t.bytes, at = 0, place;
    for (uint32_t row = 0; row < rows; row++)
        sure(vas_write_row(out, room, at, FIRST_MINUTE + row, row_factor(row), &place, &at));
    sure(vas_write_project(out, room, at, FIRST_MINUTE + rows / 2, ELEVATION, &place, &at));
    sure(vas_write_start(out, room, at, NORTH, EAST, MARK, &place, &at));
    uint32_t back = MARK;
    for (uint32_t k = 0; k < legs; k++) {
        struct side s = side(k, legs);
        uint32_t angle = (turned(back, s.azimuth) + CIRCLE + (uint32_t)varied(k + 200, 20)) % CIRCLE;
        uint32_t distance = s.distance + (uint32_t)varied(k + 300, 15);
        sure(vas_write_leg(out, room, at, angle, distance, &place, &at));
        back = turned(HALF_CIRCLE, s.azimuth);
    }
    uint32_t north = NORTH + (legs == 1 ? side(0, 1).distance / 10 : 0) + (fault == WRONG_POINT ? 10000 : 0);
    uint32_t mark = MARK + (fault == WRONG_AZIMUTH ? 500000 : 0);
    uint8_t *close = out + at;
    sure(vas_write_close(out, room, at, turned(back, MARK), north, EAST, mark, &place, &at));
    if (fault == WRONG_CLOSE)
        close[1] = 0xff; /* the writer writes no such angle */
    t.length = at;
    return t;
}

struct tape no_tape(void) {
    return (struct tape){.bytes = {99}, .length = 1};
}
