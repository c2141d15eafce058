#include "plain.h"

#include <stdbool.h>
#include <string.h>

#include "minutes.h" /* static const uint32_t minutes[5401], made by minutes.py */

enum { QUADRANT = 3240000, HALF_CIRCLE = 2 * QUADRANT, CIRCLE = 4 * QUADRANT };
enum { MOST_ROWS = 600, MOST_LEGS = 64, LEAST_WORDS = 2 * (MOST_LEGS + 1), LEAST_BYTES = 4096 };
enum { PROJECT = 1, START = 2, LEG = 3, CLOSE = 4, ROW = 5 };
enum { ROW_LENGTH = 7, PROJECT_LENGTH = 5, START_LENGTH = 13, LEG_LENGTH = 9, CLOSE_LENGTH = 17 };
enum {
    ACCEPTED = 0,
    NO_ROOM = 1,
    CUT_SHORT = 2,
    WRONG_KIND = 3,
    OUT_OF_RANGE = 4,
    WRONG_ROW = 5,
    TOO_MANY_LEGS = 6,
    NO_ROW = 7,
    ANGLES_OPEN = 8,
    POSITION_OPEN = 9
};

struct point {
    int64_t north, east;
};

/* What a tape says; the rows only by the factor that is wanted. */
struct survey {
    int64_t elevation;
    uint64_t scale;
    struct point start, end;
    uint32_t start_mark, end_mark;
    uint32_t closing_angle;
    unsigned legs;
    uint32_t angle[MOST_LEGS];
    uint32_t distance[MOST_LEGS];
    size_t close_place;
};

struct result {
    unsigned legs;
    int32_t w;
    struct point closure;
    uint64_t precision;
    int64_t area;
    bool loop;
};

/* ---- The tape */

static uint32_t two_bytes(const uint8_t *at) {
    return (uint32_t)at[0] << 8 | at[1];
}

static uint32_t four_bytes(const uint8_t *at) {
    return (uint32_t)at[0] << 24 | (uint32_t)at[1] << 16 | (uint32_t)at[2] << 8 | at[3];
}

static bool minute_in_range(uint32_t minute) {
    return minute <= 5400;
}

static bool factor_in_range(uint32_t factor) {
    return factor >= 9990000 && factor <= 10010000;
}

static bool elevation_in_range(int32_t elevation) {
    return elevation >= -1000 && elevation <= 20000;
}

static bool coordinate_in_range(uint32_t coordinate) {
    return coordinate <= 1000000000;
}

static bool angle_in_range(uint32_t angle) {
    return angle < CIRCLE;
}

static bool distance_in_range(uint32_t distance) {
    return distance >= 1000 && distance <= 20000000;
}

struct reader {
    const uint8_t *tape;
    size_t length;
    size_t at; /* the record under way, which is the place of a refusal */
};

static bool next_is(const struct reader *r, uint8_t kind) {
    return r->at < r->length && r->tape[r->at] == kind;
}

static bool whole(const struct reader *r, size_t record_length) {
    return r->length - r->at >= record_length;
}

/* The one record that may stand here: whether it does, and whole. */
static uint32_t expect(const struct reader *r, uint8_t kind, size_t record_length) {
    if (r->at == r->length)
        return CUT_SHORT;
    if (r->tape[r->at] != kind)
        return WRONG_KIND;
    return whole(r, record_length) ? ACCEPTED : CUT_SHORT;
}

/* Rows run on minute by minute, so that the first minute and the count say where each of them stands. */
static uint32_t read_rows(struct reader *r, uint32_t *first, uint32_t *count) {
    uint32_t rows = 0, due = 0;
    for (; next_is(r, ROW); r->at += ROW_LENGTH, rows++, due++) {
        if (rows == MOST_ROWS)
            return WRONG_ROW;
        if (!whole(r, ROW_LENGTH))
            return CUT_SHORT;
        const uint8_t *body = r->tape + r->at + 1;
        uint32_t minute = two_bytes(body);
        if (!minute_in_range(minute) || !factor_in_range(four_bytes(body + 2)))
            return OUT_OF_RANGE;
        if (rows == 0)
            *first = due = minute;
        if (minute != due)
            return WRONG_ROW;
    }
    *count = rows;
    return ACCEPTED;
}

static uint32_t read_project(struct reader *r, uint32_t first, uint32_t count, struct survey *s) {
    uint32_t refusal = expect(r, PROJECT, PROJECT_LENGTH);
    if (refusal)
        return refusal;
    const uint8_t *body = r->tape + r->at + 1;
    uint32_t latitude = two_bytes(body);
    int32_t elevation = (int32_t)two_bytes(body + 2);
    if (elevation >= 0x8000)
        elevation -= 0x10000;
    if (!minute_in_range(latitude) || !elevation_in_range(elevation))
        return OUT_OF_RANGE;
    uint32_t row = latitude - first; /* below the first row it wraps, and is no row either */
    if (row >= count)
        return NO_ROW;
    s->scale = four_bytes(r->tape + (size_t)row * ROW_LENGTH + 3);
    s->elevation = elevation;
    r->at += PROJECT_LENGTH;
    return ACCEPTED;
}

/* Northing, easting, azimuth: the end of a start and of a close. */
static bool read_fixed(const uint8_t *body, struct point *point, uint32_t *mark) {
    uint32_t north = four_bytes(body), east = four_bytes(body + 4);
    *point = (struct point){north, east};
    *mark = four_bytes(body + 8);
    return coordinate_in_range(north) && coordinate_in_range(east) && angle_in_range(*mark);
}

static uint32_t read_start(struct reader *r, struct survey *s) {
    uint32_t refusal = expect(r, START, START_LENGTH);
    if (refusal)
        return refusal;
    if (!read_fixed(r->tape + r->at + 1, &s->start, &s->start_mark))
        return OUT_OF_RANGE;
    r->at += START_LENGTH;
    return ACCEPTED;
}

static uint32_t read_legs(struct reader *r, struct survey *s) {
    unsigned legs = 0;
    for (; next_is(r, LEG); r->at += LEG_LENGTH, legs++) {
        if (legs == MOST_LEGS)
            return TOO_MANY_LEGS;
        if (!whole(r, LEG_LENGTH))
            return CUT_SHORT;
        const uint8_t *body = r->tape + r->at + 1;
        uint32_t angle = four_bytes(body), distance = four_bytes(body + 4);
        if (!angle_in_range(angle) || !distance_in_range(distance))
            return OUT_OF_RANGE;
        s->angle[legs] = angle;
        s->distance[legs] = distance;
    }
    s->legs = legs;
    return legs > 0 ? ACCEPTED : r->at == r->length ? CUT_SHORT : WRONG_KIND;
}

static uint32_t read_close(struct reader *r, struct survey *s) {
    uint32_t refusal = expect(r, CLOSE, CLOSE_LENGTH);
    if (refusal)
        return refusal;
    const uint8_t *body = r->tape + r->at + 1;
    s->closing_angle = four_bytes(body);
    if (!read_fixed(body + 4, &s->end, &s->end_mark) || !angle_in_range(s->closing_angle))
        return OUT_OF_RANGE;
    s->close_place = r->at;
    r->at += CLOSE_LENGTH;
    return r->at == r->length ? ACCEPTED : WRONG_KIND;
}

/* Refusals 2 to 7, with the place of the record under way. */
static uint32_t read_tape(const uint8_t *tape, size_t length, struct survey *s, size_t *place) {
    struct reader r = {tape, length, 0};
    uint32_t first = 0, count = 0, refusal;
    if ((refusal = read_rows(&r, &first, &count)) == ACCEPTED &&
        (refusal = read_project(&r, first, count, s)) == ACCEPTED &&
        (refusal = read_start(&r, s)) == ACCEPTED &&
        (refusal = read_legs(&r, s)) == ACCEPTED)
        refusal = read_close(&r, s);
    *place = refusal ? r.at : 0;
    return refusal;
}

/* ---- Arithmetic. Nearest, a half away from zero: sizes are rounded, signs put on afterwards. */

static int64_t signed_as(bool negative, uint64_t size) {
    return negative ? -(int64_t)size : (int64_t)size;
}

static uint64_t size_of(int64_t amount) {
    return amount < 0 ? -(uint64_t)amount : (uint64_t)amount;
}

/* Halves fall right for an odd divisor too: it has none. */
static uint64_t nearest(uint64_t amount, uint64_t divisor) {
    return (amount + divisor / 2) / divisor;
}

/* Closure times part over whole; closures are small by then, so that the product stays below 2^63. */
static int64_t share(int64_t closure, uint64_t part, uint64_t whole) {
    return signed_as(closure < 0, nearest(size_of(closure) * part, whole));
}

static uint64_t combined_factor(const struct survey *s) {
    uint64_t radius = 20906000;
    uint64_t sea_level = nearest(radius * 10000000, radius + (uint64_t)s->elevation);
    return nearest(sea_level * s->scale, 10000000);
}

/* The sine of an angle of the first quadrant. */
static uint32_t quadrant_sine(uint32_t angle) {
    uint32_t minute = angle / 600, tenths = angle % 600;
    if (tenths == 0)
        return minutes[minute];
    return minutes[minute] + ((minutes[minute + 1] - minutes[minute]) * tenths + 300) / 600;
}

/* Latitude and departure. An azimuth runs from south, so that both have the sign opposite to cosine and sine. */
static struct point course(uint64_t distance, uint32_t azimuth) {
    bool west = azimuth < HALF_CIRCLE;
    bool south = azimuth < QUADRANT || azimuth > HALF_CIRCLE + QUADRANT;
    uint32_t half = west ? azimuth : azimuth - HALF_CIRCLE;
    uint32_t folded = half <= QUADRANT ? half : HALF_CIRCLE - half;
    uint64_t north = nearest(distance * quadrant_sine(QUADRANT - folded), 10000000000);
    uint64_t east = nearest(distance * quadrant_sine(folded), 10000000000);
    return (struct point){signed_as(south, north), signed_as(west, east)};
}

static uint32_t turned(uint32_t azimuth, uint32_t angle) {
    uint32_t sum = azimuth + angle;
    return sum < CIRCLE ? sum : sum - CIRCLE;
}

static uint32_t turned_back(uint32_t azimuth, int32_t angle) {
    int32_t rest = (int32_t)azimuth - angle;
    return (uint32_t)(rest < 0 ? rest + CIRCLE : rest >= CIRCLE ? rest - CIRCLE : rest);
}

/* The azimuth of every leg as carried; the answer is the misclosure W. */
static int32_t carry(const struct survey *s, uint32_t azimuth[MOST_LEGS]) {
    uint32_t back = s->start_mark;
    for (unsigned j = 0; j < s->legs; j++) {
        azimuth[j] = turned(back, s->angle[j]);
        back = turned(azimuth[j], HALF_CIRCLE);
    }
    int32_t w = (int32_t)turned(back, s->closing_angle) - (int32_t)s->end_mark;
    return w > HALF_CIRCLE ? w - CIRCLE : w <= -HALF_CIRCLE ? w + CIRCLE : w;
}

/* The root as a clerk takes it: pairs of digits are brought down from the left, and each gives one digit. The divisor,
 * 20 roots, goes into the rest as often as the digit or more, so that this often is tried first. */
static uint64_t square_root(uint64_t amount) {
    const uint64_t first = 10000000000000000; /* one unit of the first of nine pairs */
    uint64_t root = 0, rest = 0;
    unsigned pairs = 9;
    for (; pairs > 1 && amount < first; pairs--)
        amount *= 100;
    for (; pairs > 0; pairs--) {
        rest = 100 * rest + amount / first;
        amount = amount % first * 100;
        uint64_t digit = rest < 200 * root ? rest / (20 * root) : 9;
        while ((20 * root + digit) * digit > rest)
            digit--;
        rest -= (20 * root + digit) * digit;
        root = 10 * root + digit;
    }
    return root;
}

/* P squared x 100 x squares <= S squared, squares being those of both closures. */
static uint64_t precision(uint64_t squares, uint64_t s) {
    return squares == 0 ? 0 : square_root(s * s / (100 * squares));
}

/* Round the stations, offsets taken from station 0. The last station is station 0 again. */
static int64_t doubled_area(const int64_t *words, unsigned legs) {
    int64_t area = 0, north = 0, east = 0;
    for (unsigned k = 1; k < legs; k++) {
        int64_t next_north = words[2 * k] - words[0], next_east = words[2 * k + 1] - words[1];
        area += north * next_east - next_north * east;
        north = next_north;
        east = next_east;
    }
    return area;
}

/* Refusals 8 and 9. Stations are worked out aside, for the words stay as they are on a refusal. */
static uint32_t adjust(const struct survey *s, int64_t *words, struct result *result) {
    unsigned n = s->legs;
    uint32_t azimuth[MOST_LEGS];
    int32_t w = carry(s, azimuth);
    uint32_t w_size = (uint32_t)(w < 0 ? -w : w);
    if (w_size > 100 * (n + 1))
        return ANGLES_OPEN;

    struct point station[MOST_LEGS]; /* the preliminary end of each leg, and the distance run to it */
    uint64_t run[MOST_LEGS];
    struct point at = s->start;
    uint64_t sum = 0, factor = combined_factor(s);
    for (unsigned j = 0; j < n; j++) {
        int32_t part = (int32_t)((w_size * (j + 1) + (n + 1) / 2) / (n + 1));
        uint64_t grid = nearest(s->distance[j] * factor, 10000000);
        struct point step = course(grid, turned_back(azimuth[j], w < 0 ? -part : part));
        at.north += step.north;
        at.east += step.east;
        sum += grid;
        station[j] = at;
        run[j] = sum;
    }

    struct point closure = {at.north - s->end.north, at.east - s->end.east};
    uint64_t squares = (uint64_t)(closure.north * closure.north + closure.east * closure.east);
    if (squares > sum * sum / 2500000000) /* a whole number exceeds a quotient as it exceeds its whole part */
        return POSITION_OPEN;

    words[0] = s->start.north;
    words[1] = s->start.east;
    for (unsigned j = 0; j < n; j++) {
        words[2 * j + 2] = station[j].north - share(closure.north, run[j], sum);
        words[2 * j + 3] = station[j].east - share(closure.east, run[j], sum);
    }
    bool loop = s->start.north == s->end.north && s->start.east == s->end.east;
    *result = (struct result){n, w, closure, precision(squares, sum), loop ? doubled_area(words, n) : 0, loop};
    return ACCEPTED;
}

/* Refusals 2 to 9; words has room for all stations. */
static uint32_t work(const uint8_t *tape, size_t length, int64_t *words, size_t *place, struct result *result) {
    struct survey s;
    uint32_t refusal = read_tape(tape, length, &s, place);
    if (refusal)
        return refusal;
    refusal = adjust(&s, words, result);
    *place = refusal ? s.close_place : 0;
    return refusal;
}

uint32_t plain_traverse(const uint8_t *tape, size_t tape_len, int64_t *words, size_t words_len, size_t *place,
                        int64_t figures[7]) {
    struct result r = {0};
    uint32_t refusal = NO_ROOM;
    *place = 0;
    if (words_len >= LEAST_WORDS)
        refusal = work(tape, tape_len, words, place, &r);
    figures[0] = r.legs;
    figures[1] = r.w;
    figures[2] = r.closure.north;
    figures[3] = r.closure.east;
    figures[4] = (int64_t)r.precision;
    figures[5] = r.area;
    figures[6] = r.loop;
    return refusal;
}

/* ---- The sheet: each of these writes at out and returns where what it wrote ends. */

static uint8_t *put_text(uint8_t *out, const char *text, size_t length) {
    memcpy(out, text, length);
    return out + length;
}

static const char pairs[] = "00010203040506070809101112131415161718192021222324"
                            "25262728293031323334353637383940414243444546474849"
                            "50515253545556575859606162636465666768697071727374"
                            "75767778798081828384858687888990919293949596979899";

/* Two digits at a time, from the last to the first, for the divisions are what this costs. No amount of a sheet comes
 * near 10^19. */
static uint8_t *put_whole(uint8_t *out, uint64_t amount) {
    unsigned digits = 1;
    for (uint64_t bound = 10; amount >= bound; bound *= 10)
        digits++;
    uint8_t *at = out + digits;
    for (; amount >= 100; amount /= 100)
        memcpy(at -= 2, pairs + 2 * (amount % 100), 2);
    if (amount >= 10)
        memcpy(at - 2, pairs + 2 * amount, 2);
    else
        at[-1] = (uint8_t)('0' + amount);
    return out + digits;
}

/* A size of which 10^decimals make one. */
static uint8_t *put_size(uint8_t *out, uint64_t size, unsigned decimals, uint64_t one) {
    uint64_t rest = size % one;
    out = put_whole(out, size / one);
    *out++ = '.';
    for (unsigned i = decimals; i-- > 0; rest /= 10)
        out[i] = (uint8_t)('0' + rest % 10);
    return out + decimals;
}

static uint8_t *put_signed(uint8_t *out, int64_t amount, unsigned decimals, uint64_t one) {
    *out++ = amount < 0 ? '-' : '+';
    return put_size(out, size_of(amount), decimals, one);
}

static uint8_t *put_plain(uint8_t *out, int64_t amount, unsigned decimals, uint64_t one) {
    if (amount < 0)
        *out++ = '-';
    return put_size(out, size_of(amount), decimals, one);
}

#define PUT(out, text) put_text(out, text, sizeof text - 1)

static size_t put_sheet(uint8_t *out, const int64_t *words, const struct result *r) {
    uint8_t *first = out;
    out = PUT(out, "CLOSE W=");
    out = put_signed(out, r->w, 1, 10);
    out = PUT(out, " N=");
    out = put_signed(out, r->closure.north, 2, 100);
    out = PUT(out, " E=");
    out = put_signed(out, r->closure.east, 2, 100);
    out = PUT(out, " P=");
    out = put_whole(out, r->precision);
    *out++ = '\n';
    for (unsigned k = 0; k <= r->legs; k++) {
        out = put_whole(out, k);
        *out++ = ' ';
        out = put_plain(out, words[2 * k], 2, 100);
        *out++ = ' ';
        out = put_plain(out, words[2 * k + 1], 2, 100);
        *out++ = '\n';
    }
    if (r->loop) {
        out = PUT(out, "AREA2 ");
        out = put_plain(out, r->area, 4, 10000);
        *out++ = '\n';
    }
    return (size_t)(out - first);
}

uint32_t plain_sheet(const uint8_t *tape, size_t tape_len, uint8_t *out, size_t out_len, size_t *place,
                     size_t *length) {
    *place = 0;
    *length = 0;
    if (out_len < LEAST_BYTES)
        return NO_ROOM;
    int64_t words[LEAST_WORDS];
    struct result r;
    uint32_t refusal = work(tape, tape_len, words, place, &r);
    if (refusal == ACCEPTED)
        *length = put_sheet(out, words, &r);
    return refusal;
}
