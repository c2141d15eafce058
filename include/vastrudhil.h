/* Vastrudhil, the proved traverse desk, for programs in C and C++.
 *
 * Every function takes any numbers and any bytes: what is out of range is refused, never undefined.
 * Memory is the caller's: a pointer must lead to as many items as the text says, and is not kept.
 * What is written may overlap neither what is read nor anything else that is written. A null
 * pointer is allowed only for an empty list (tape, words, out or offsets of length 0): never for
 * place, next, used, value or figures, which every call writes, nor for table. A wrong pointer is
 * undefined behaviour, not refused.
 *
 * Nothing is allocated, errno is not touched and no state is kept between calls, so any number of
 * threads may call at once, as long as no memory that one of them writes is lent to another
 * meanwhile. The library is for Linux on any x86-64 processor and needs at most memcpy and memset
 * of the C library. A call takes up to 32 KB of stack; by a lent table, and in a function that
 * needs no sine, up to 8 KB.
 *
 * No version is promised: build with the header of the commit that the archive was made from.
 *
 * Every function but vas_table returns a number: 0 where the input is accepted, else the number of
 * the refusal. On acceptance every place that is told is 0. docs/REFUSALS.md has what to do about
 * each refusal.
 *
 *   1  the lent memory is too small
 *   2  the tape ends inside a record, or before the close
 *   3  out of order: rows come first, then one project, one start, 1 to 64 legs and one close
 *   4  a number is out of range
 *   5  each row is one minute above the row before, and there are at most 600 rows
 *   6  this is the 65th leg, and there are at most 64
 *   7  no row has the mean latitude
 *   8  the angular misclosure is above 10 seconds for each angle
 *   9  the position closure is above 1 in 5,000 of the distance
 *
 * The first that applies is given: 1 is tested first, then 2 to 7 in the order of the tape, then 8,
 * then 9. A writer tests 1, then 4.
 *
 * A place counts bytes of the tape from 0. For 2 to 6 it is the first byte of the record, or the
 * tape's length where a next record is missing; for 7 that of the project record; for 8 and 9 that
 * of the close record; for 1 it is 0. An arithmetic step tells no place; its refusal is always 4.
 * On a refusal every other number that is told is 0, and lent lists (tape, words, out) are left as
 * they were.
 *
 * Units: angles and azimuths in tenths of a second, clockwise from south, below 12960000;
 * coordinates, closures, latitudes and departures in hundredths of a foot; distances in thousandths
 * of a foot; factors in ten-millionths; sines in units of the ninth decimal. A range a..b has both
 * of its ends in it.
 *
 * Signs: a latitude is how far north and a departure how far east, minus for south and west. A
 * closure is the computed end less the fixed end.
 *
 * The bytes of each record of a tape stand in docs/RULES.md, "The tape". The longest tape that
 * reads has 4811 bytes.
 */
#ifndef VASTRUDHIL_H
#define VASTRUDHIL_H

#include <stdbool.h>
#include <stddef.h>
#include <stdint.h>

#ifdef __cplusplus
extern "C" {
#endif

/* How many entries a table of sines has, how many words a traverse wants, how many bytes a sheet
 * wants, how many figures are told. */
enum { VAS_TABLE = 5401, VAS_WORDS = 130, VAS_SHEET = 4096, VAS_FIGURES = 7 };

/* The figures of an accepted traverse, by their place in the list. */
enum {
    VAS_LEGS = 0,      /* n, the number of legs: 1 to 64 */
    VAS_W = 1,         /* the angular misclosure */
    VAS_NORTH = 2,     /* closure in northing: the computed end less the fixed end */
    VAS_EAST = 3,      /* closure in easting, likewise */
    VAS_PRECISION = 4, /* the precision number, 1 in so many; 0 where both closures are 0 */
    VAS_AREA = 5,      /* the doubled area of a loop, in 0.0001 square foot, clockwise positive; 0
                          where it is none */
    VAS_LOOP = 6       /* 1 for a loop, 0 for none */
};

/* ---- distances */

/* The sea level factor of a mean elevation of -1000..20000 feet. */
uint32_t vas_sea_level(int64_t elevation, uint64_t *value);

/* The combined factor of a sea level factor and a scale factor, each 9990000..10010000: the nearest
 * ten-millionth of their product. */
uint32_t vas_combine(uint64_t sea, uint64_t scale, uint64_t *value);

/* The grid distance of a measured one of 1000..20000000, by a combined factor of
 * 9980000..10020010. */
uint32_t vas_grid(uint64_t distance, uint64_t factor, uint64_t *value);

/* ---- sines */

/* The desk's own table of sines, written into the caller's: the sine of every whole minute from 0
 * to 90 degrees. A function that needs sines and is lent no table reads this one where it stands in
 * the library. A program that works many tapes may take the table once and lend it to the functions
 * that end in _in: they read it where it stands, answer the same, and write nothing to it, so that
 * threads may share it.
 *
 * A lent table is not checked: lend only what vas_table has filled. With any other, one of zeros
 * among them, a tape may be accepted with wrong stations, and 0 is returned. A table of fewer than
 * VAS_TABLE entries is read past its end. (What is proved of a lent table: the answers are the
 * rules', with its entries for sines.) */
void vas_table(uint32_t table[VAS_TABLE]);

/* The sine and the cosine of an angle. */
uint32_t vas_sine(uint32_t angle, int64_t *value);
uint32_t vas_cosine(uint32_t angle, int64_t *value);

/* The sine and the cosine in a lent table, whatever it holds; an entry above 1000000000 counts as
 * 1000000000. */
uint32_t vas_sine_in(const uint32_t table[VAS_TABLE], uint32_t angle, int64_t *value);
uint32_t vas_cosine_in(const uint32_t table[VAS_TABLE], uint32_t angle, int64_t *value);

/* ---- azimuths */

/* The azimuth of leg 1, from the azimuth to the mark and the angle right. */
uint32_t vas_from_mark(uint32_t mark, uint32_t angle, uint64_t *value);

/* The azimuth of each next leg, and the closing one, from the azimuth before and the angle
 * right. */
uint32_t vas_onward(uint32_t before, uint32_t angle, uint64_t *value);

/* The angular misclosure W: carried less given, above minus half a circle and at most half a
 * circle. */
uint32_t vas_misclosure(uint32_t carried, uint32_t given, int64_t *value);

/* Whether a misclosure of size up to 6480000 is within its limit over n legs, 1..64. */
uint32_t vas_closes_angles(int64_t w, uint64_t n, bool *value);

/* The share of a misclosure of size up to 6480000 at the j-th of n + 1 angles, n of 1..64 and j of
 * 0..n + 1. */
uint32_t vas_angle_share(int64_t w, uint64_t j, uint64_t n, int64_t *value);

/* The balanced azimuth: the carried one less a share of size up to 6480000. */
uint32_t vas_balanced(uint32_t azimuth, int64_t share, uint64_t *value);

/* ---- latitude (how far north) and departure (how far east), of a grid distance of 0..20100000
 * along an azimuth */

uint32_t vas_latitude(uint64_t distance, uint32_t azimuth, int64_t *value);
uint32_t vas_departure(uint64_t distance, uint32_t azimuth, int64_t *value);

/* Latitude and departure by the sines of a lent table. */
uint32_t vas_latitude_in(const uint32_t table[VAS_TABLE], uint64_t distance, uint32_t azimuth,
                         int64_t *value);
uint32_t vas_departure_in(const uint32_t table[VAS_TABLE], uint64_t distance, uint32_t azimuth,
                          int64_t *value);

/* ---- closure and compass rule; s, the sum of grid distances, is 1..1300000000 */

/* Whether closures of size up to 1200000000 are within the limit. */
uint32_t vas_closes(int64_t north, int64_t east, uint64_t s, bool *value);

/* The precision number of closures of size up to 26000. */
uint32_t vas_precision(int64_t north, int64_t east, uint64_t s, uint64_t *value);

/* The share of a closure of size up to 26000 at a part, 0..whole, of a whole, 1..1300000000. */
uint32_t vas_share(int64_t closure, uint64_t part, uint64_t whole, int64_t *value);

/* The doubled area of 1 to 64 stations, in 0.0001 square foot, clockwise positive: northing, then
 * easting, of each, as offsets of size up to 130000000. offsets_len counts the words, so it is
 * even. */
uint32_t vas_doubled_area(const int64_t *offsets, size_t offsets_len, int64_t *value);

/* ---- the writer of one record, into out from the byte `at` on. Accepted, *next is the place after
 * the record, and no byte outside it has changed. Refused with 1 where the record has no room (any
 * `at` may be given), with 4 at place `at` where a field is out of range. Refused, *next is 0: keep
 * `at` apart from it. An out of 4811 bytes has room for every tape that reads. */

/* A row of the zone table, 7 bytes: minute 0..5400, scale factor 9990000..10010000. */
uint32_t vas_write_row(uint8_t *out, size_t out_len, size_t at, uint32_t minute, uint32_t factor,
                       size_t *place, size_t *next);

/* The project, 5 bytes: its mean latitude 0..5400 in minutes, its mean elevation -1000..20000 in
 * feet. */
uint32_t vas_write_project(uint8_t *out, size_t out_len, size_t at, uint32_t latitude,
                           int64_t elevation, size_t *place, size_t *next);

/* The start, 13 bytes: a fixed point of 0..1000000000 each way, and the azimuth to the mark. */
uint32_t vas_write_start(uint8_t *out, size_t out_len, size_t at, uint32_t northing,
                         uint32_t easting, uint32_t mark, size_t *place, size_t *next);

/* A leg, 9 bytes: its angle right, its measured distance 1000..20000000. */
uint32_t vas_write_leg(uint8_t *out, size_t out_len, size_t at, uint32_t angle, uint32_t distance,
                       size_t *place, size_t *next);

/* The close, 17 bytes: the closing angle, the fixed end of 0..1000000000 each way, and the azimuth
 * to the closing mark. */
uint32_t vas_write_close(uint8_t *out, size_t out_len, size_t at, uint32_t angle, uint32_t northing,
                         uint32_t easting, uint32_t mark, size_t *place, size_t *next);

/* ---- a whole tape */

/* The reading: whether the tape is one, by refusals 2 to 7. No function gives the fields of a tape
 * back: a program that wants them reads the bytes, by the table in docs/RULES.md, "The tape". */
uint32_t vas_read(const uint8_t *tape, size_t tape_len, size_t *place);

/* The traverse: northing, then easting, of stations 0 to n go into words, which has VAS_WORDS or
 * more; later words keep what they held. Refused with 1 to 9. */
uint32_t vas_traverse(const uint8_t *tape, size_t tape_len, int64_t *words, size_t words_len,
                      size_t *place, int64_t figures[VAS_FIGURES]);

/* The sheet: the text of an accepted tape from out[0] on, *used bytes of it without a 0 after
 * them; out has VAS_SHEET bytes or more, and those after the text keep what they held. Refused with
 * 1 to 9. */
uint32_t vas_sheet(const uint8_t *tape, size_t tape_len, uint8_t *out, size_t out_len,
                   size_t *place, size_t *used);

/* Traverse and sheet by the sines of a lent table, for programs that work many tapes. With a table
 * that vas_table has filled the answers are those of vas_traverse and vas_sheet. */
uint32_t vas_traverse_in(const uint32_t table[VAS_TABLE], const uint8_t *tape, size_t tape_len,
                         int64_t *words, size_t words_len, size_t *place,
                         int64_t figures[VAS_FIGURES]);
uint32_t vas_sheet_in(const uint32_t table[VAS_TABLE], const uint8_t *tape, size_t tape_len,
                      uint8_t *out, size_t out_len, size_t *place, size_t *used);

#ifdef __cplusplus
}
#endif

#endif
