/* Answers a bundle of cases on standard input through the C face, in the form that second/cases.py describes:
 *
 *     face_cases < crates/cases/stdin
 *
 * prints what `python3 -m second.cases expected T D S A` prints; the field notes, N, are passed over, since the face has no function for them.
 * Two promises of the face that no expected line would show are tested here: a traverse and a sheet by the desk's own table, lent, are those
 * without it, and the records of a tape that reads, written one by one, are that tape again. A case that breaks one ends the program with a
 * message and 1. At the end, on standard error: how many cases were answered, and how many tapes were written again. */
#include <inttypes.h>
#include <stdio.h>
#include <stdlib.h>
#include <string.h>

#include "vastrudhil.h"

/* Room for a bundle, for the words, the sheet and the tape of a case, and for the offsets of an area. Of words and sheet there is always some
 * after what is lent, so that a step beyond that shows. */
enum { BUNDLE = 1 << 22, WORDS = 256, BYTES = 4300, TAPE = 1 << 16, OFFSETS = 255 };

/* What every number that is to be told holds before a call: one that is not told shows. No coordinate is so large. */
static const int64_t UNTOLD = 1000000000000000000;

/* The desk's own table, lent to the functions that end in _in. */
static uint32_t sines[VAS_TABLE];

static size_t cases, written, case_at;

static _Noreturn void fail(const char *why) {
    fprintf(stderr, "face_cases: the case at byte %zu of the bundle: %s\n", case_at, why);
    exit(1);
}

/* ---- what a bundle consists of: numbers, high byte first, and bytes after their length */

struct bytes {
    const uint8_t *at;
    size_t length;
};

/* The face allows a null pointer for an empty list: here every empty list is one. */
static void *lent(void *list, size_t length) {
    return length == 0 ? NULL : list;
}

static struct bytes take(struct bytes *rest, size_t length) {
    if (length > rest->length)
        fail("it is cut short");
    struct bytes taken = {length == 0 ? NULL : rest->at, length};
    rest->at += length;
    rest->length -= length;
    return taken;
}

static uint64_t take_number(struct bytes *rest, size_t length) {
    struct bytes digits = take(rest, length);
    uint64_t number = 0;
    for (size_t i = 0; i < length; i++)
        number = number << 8 | digits.at[i];
    return number;
}

static struct bytes take_sized(struct bytes *rest) {
    size_t length = take_number(rest, 2);
    return take(rest, length);
}

/* ---- the writers, of a tape that reads */

/* How many bytes each field of a record takes, by its kind. Of all only the elevation has a sign. */
static const uint8_t FIELDS[][4] = {[1] = {2, 2}, [2] = {4, 4, 4}, [3] = {4, 4}, [4] = {4, 4, 4, 4}, [5] = {2, 4}};

static uint32_t write_record(uint64_t kind, const uint64_t f[4], uint8_t *out, size_t out_len, size_t at, size_t *place, size_t *next) {
    switch (kind) {
    case 1: return vas_write_project(out, out_len, at, f[0], (int16_t)f[1], place, next);
    case 2: return vas_write_start(out, out_len, at, f[0], f[1], f[2], place, next);
    case 3: return vas_write_leg(out, out_len, at, f[0], f[1], place, next);
    case 4: return vas_write_close(out, out_len, at, f[0], f[1], f[2], f[3], place, next);
    default: return vas_write_row(out, out_len, at, f[0], f[1], place, next);
    }
}

/* The next record of the tape, written to its own place in out. */
static void write_next(struct bytes *rest, uint8_t *out, size_t out_len) {
    size_t at = out_len - rest->length, place = UNTOLD, next = UNTOLD;
    uint64_t kind = take_number(rest, 1), fields[4];
    if (kind < 1 || kind > 5)
        fail("a tape with a record of no kind was read");
    for (size_t i = 0; i < 4; i++)
        fields[i] = take_number(rest, FIELDS[kind][i]);
    if (write_record(kind, fields, out, out_len, at, &place, &next) != 0 || place != 0 || next != out_len - rest->length)
        fail("a record of a tape that reads was not written");
}

/* After each record, out is the tape up to the record's end, and what it was before from there on, one byte after the lent ones with it. */
static void write_again(struct bytes tape) {
    static uint8_t out[TAPE], before[TAPE];
    /* no byte is what it has to become */
    for (size_t i = 0; i < tape.length; i++)
        before[i] = ~tape.at[i];
    memcpy(out, before, tape.length + 1);
    for (struct bytes rest = tape; rest.length > 0;) {
        write_next(&rest, out, tape.length);
        size_t end = tape.length - rest.length;
        if (memcmp(out, tape.at, end) != 0 || memcmp(out + end, before + end, rest.length + 1) != 0)
            fail("its tape, written again, is another");
    }
    written++;
}

/* ---- T, a tape */

static void answer_reading(struct bytes tape) {
    size_t place = UNTOLD;
    uint32_t number = vas_read(tape.at, tape.length, &place);
    printf("%" PRIu32 " %zu\n", number, place);
    if (number == 0)
        write_again(tape);
}

/* ---- D, a tape with the number of words and of bytes to lend */

struct traverse {
    uint32_t number;
    size_t place;
    int64_t figures[VAS_FIGURES], words[WORDS];
};

static struct traverse traverse_of(struct bytes tape, size_t room, bool own) {
    struct traverse t = {.place = UNTOLD};
    for (size_t i = 0; i < VAS_FIGURES; i++)
        t.figures[i] = UNTOLD;
    for (size_t i = 0; i < WORDS; i++)
        t.words[i] = UNTOLD;
    int64_t *words = lent(t.words, room);
    t.number = own ? vas_traverse(tape.at, tape.length, words, room, &t.place, t.figures)
                   : vas_traverse_in(sines, tape.at, tape.length, words, room, &t.place, t.figures);
    return t;
}

static void tell_traverse(struct bytes tape, size_t room) {
    struct traverse t = traverse_of(tape, room, true), by_table = traverse_of(tape, room, false);
    if (t.number != by_table.number || t.place != by_table.place || memcmp(t.figures, by_table.figures, sizeof t.figures) != 0 ||
        memcmp(t.words, by_table.words, sizeof t.words) != 0)
        fail("its traverse is another by the table lent");
    printf("%" PRIu32 " %zu", t.number, t.place);
    for (size_t i = 0; i < VAS_FIGURES; i++)
        printf(" %" PRId64, t.figures[i]);
    size_t end = 0;
    for (size_t i = 0; i < WORDS; i++)
        if (t.words[i] != UNTOLD) {
            printf(" %" PRId64, t.words[i]);
            end = i + 1;
        }
    printf(" %zu\n", end);
}

struct sheet {
    uint32_t number;
    size_t place, length;
    uint8_t out[BYTES];
};

static struct sheet sheet_by(struct bytes tape, size_t room, bool own) {
    struct sheet s = {.place = UNTOLD, .length = UNTOLD};
    uint8_t *out = lent(s.out, room);
    s.number = own ? vas_sheet(tape.at, tape.length, out, room, &s.place, &s.length)
                   : vas_sheet_in(sines, tape.at, tape.length, out, room, &s.place, &s.length);
    return s;
}

static struct sheet sheet_of(struct bytes tape, size_t room) {
    struct sheet s = sheet_by(tape, room, true), by_table = sheet_by(tape, room, false);
    if (s.number != by_table.number || s.place != by_table.place || s.length != by_table.length || memcmp(s.out, by_table.out, sizeof s.out) != 0)
        fail("its sheet is another by the table lent");
    return s;
}

static void tell_sheet(struct sheet s) {
    size_t changed = 0;
    for (size_t i = 0; i < BYTES; i++)
        changed += s.out[i] != 0;
    printf("%" PRIu32 " %zu %zu %zu\n", s.number, s.place, s.length, changed);
}

/* What the program SHEET prints. */
static void print_sheet(struct sheet s) {
    if (s.number != 0)
        printf("REFUSED %" PRIu32 "\n", s.number);
    else if (s.length > VAS_SHEET)
        fail("its sheet is longer than its room");
    else
        fwrite(s.out, 1, s.length, stdout);
}

static void answer_desk(struct bytes *rest) {
    size_t words = take_number(rest, 1), bytes = take_number(rest, 2), place;
    struct bytes tape = take_sized(rest);
    if (bytes >= BYTES)
        fail("it lends more bytes than there are");
    tell_traverse(tape, words);
    tell_sheet(sheet_of(tape, bytes));
    print_sheet(sheet_of(tape, VAS_SHEET));
    if (vas_read(tape.at, tape.length, &place) == 0)
        write_again(tape);
}

/* ---- what a step answers: number, place, which is always 0, and value. The value comes by its pointer, since nothing says whether C takes the
 * value of an argument before or after the call that stands in another. */

static void tell_count(uint32_t number, const uint64_t *value) {
    printf("%" PRIu32 " 0 %" PRIu64 "\n", number, *value);
}

static void tell_amount(uint32_t number, const int64_t *value) {
    printf("%" PRIu32 " 0 %" PRId64 "\n", number, *value);
}

static void tell_verdict(uint32_t number, const bool *value) {
    printf("%" PRIu32 " 0 %d\n", number, *value);
}

/* ---- S, a call of a step */

static void answer_area(struct bytes *rest) {
    size_t count = take_number(rest, 1);
    int64_t offsets[OFFSETS], area = UNTOLD;
    for (size_t i = 0; i < count; i++)
        offsets[i] = take_number(rest, 8);
    tell_amount(vas_doubled_area(lent(offsets, count), count, &area), &area);
}

/* How many bytes each argument takes, by the step's number; an area has its own way. */
static const uint8_t ARGUMENTS[][3] = {
    [1] = {8},        [2] = {8, 8},     [3] = {8, 8},  [4] = {4, 4},  [5] = {4, 4},     [6] = {4, 4},     [7] = {8, 8},  [8] = {4, 8},
    [9] = {8, 8, 8}, [10] = {8, 8, 8}, [11] = {8, 4}, [12] = {8, 4}, [13] = {8, 8, 8}, [14] = {8, 8, 8}, [16] = {8, 4}, [17] = {8, 4},
};

static void answer_step(uint64_t step, struct bytes *rest) {
    uint64_t a[3], count = UNTOLD;
    int64_t amount = UNTOLD;
    bool verdict = true;
    for (size_t i = 0; i < 3; i++)
        a[i] = take_number(rest, ARGUMENTS[step][i]);
    switch (step) {
    case 1: tell_count(vas_sea_level(a[0], &count), &count); break;
    case 2: tell_count(vas_combine(a[0], a[1], &count), &count); break;
    case 3: tell_count(vas_grid(a[0], a[1], &count), &count); break;
    case 4: tell_count(vas_from_mark(a[0], a[1], &count), &count); break;
    case 5: tell_count(vas_onward(a[0], a[1], &count), &count); break;
    case 6: tell_amount(vas_misclosure(a[0], a[1], &amount), &amount); break;
    case 7: tell_verdict(vas_closes_angles(a[0], a[1], &verdict), &verdict); break;
    case 8: tell_count(vas_balanced(a[0], a[1], &count), &count); break;
    case 9: tell_amount(vas_share(a[0], a[1], a[2], &amount), &amount); break;
    case 10: tell_amount(vas_angle_share(a[0], a[1], a[2], &amount), &amount); break;
    case 11: tell_amount(vas_latitude(a[0], a[1], &amount), &amount); break;
    case 12: tell_amount(vas_departure(a[0], a[1], &amount), &amount); break;
    case 13: tell_verdict(vas_closes(a[0], a[1], a[2], &verdict), &verdict); break;
    case 14: tell_count(vas_precision(a[0], a[1], a[2], &count), &count); break;
    case 15: answer_area(rest); break;
    case 16: tell_amount(vas_latitude_in(sines, a[0], a[1], &amount), &amount); break;
    case 17: tell_amount(vas_departure_in(sines, a[0], a[1], &amount), &amount); break;
    }
}

static void answer_call(struct bytes *rest) {
    uint64_t step = take_number(rest, 1);
    if (step < 1 || step > 17)
        fail("a step that there is not");
    answer_step(step, rest);
}

/* ---- A, an angle */

static void answer_angle(uint32_t angle) {
    int64_t values[4] = {UNTOLD, UNTOLD, UNTOLD, UNTOLD};
    tell_amount(vas_sine(angle, &values[0]), &values[0]);
    tell_amount(vas_cosine(angle, &values[1]), &values[1]);
    tell_amount(vas_sine_in(sines, angle, &values[2]), &values[2]);
    tell_amount(vas_cosine_in(sines, angle, &values[3]), &values[3]);
}

/* ---- the bundle */

static void answer_case(struct bytes *rest) {
    uint64_t letter = take_number(rest, 1);
    if (letter == 'N') {
        take_sized(rest);
        return;
    }
    switch (letter) {
    case 'T': answer_reading(take_sized(rest)); break;
    case 'D': answer_desk(rest); break;
    case 'S': answer_call(rest); break;
    case 'A': answer_angle(take_number(rest, 4)); break;
    default: fail("its letter is no subject's");
    }
    cases++;
}

int main(void) {
    static uint8_t bundle[BUNDLE];
    struct bytes rest = {bundle, fread(bundle, 1, sizeof bundle, stdin)};
    if (ferror(stdin) || rest.length == sizeof bundle)
        fail("standard input cannot be read, or is too long");
    vas_table(sines);
    for (; rest.length > 0; case_at = rest.at - bundle)
        answer_case(&rest);
    if (fflush(stdout) != 0 || ferror(stdout))
        fail("standard output cannot be written");
    fprintf(stderr, "%zu %zu\n", cases, written);
    return 0;
}
