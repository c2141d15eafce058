/* The desk from C, or C++: tapes in, their sheets out.
 *
 *     (cd crates/vastrudhil && rt lib --cpu x86-64)
 *     gcc -Iinclude examples/sheet.c crates/vastrudhil/out/libvastrudhil.a -o sheet-in-c
 *     ./sheet-in-c < examples/yard.tape
 *     ./sheet-in-c examples/yard.tape examples/hill_yard.tape
 *
 * A tape is read from each file that is named, or from standard input where none is. Sheets are
 * printed in that order, one after the other; a refused tape has one line instead, REFUSED and the
 * refusal's number, and standard error says of which tape it is, and at which byte.
 *
 * The library is for x86-64, and is to be made again after a change of its sources, which gcc does
 * not notice. The program ends with 0 where every tape has its sheet, with 1 where one is refused,
 * with 2 where one could not be read or an answer not be written.
 */
#include <errno.h>
#include <stdio.h>
#include <string.h>

#include "vastrudhil.h"

/* The longest tape that can be accepted has 4811 bytes: 600 rows, project, start, 64 legs, close. A
 * longer one is refused for what stands in its first 4812, so this much of it is enough, and
 * nothing is allocated. */
enum { TAPE = 8192 };

/* How the program ends: the worst that any of its tapes met. */
enum { PRINTED = 0, REFUSED = 1, FAILED = 2 };

/* The desk's table of sines, 21 KB: main has vas_table fill it before it is lent, since a table is
 * not checked, and no other call changes it. */
static uint32_t sines[VAS_TABLE];

/* Says why a tape cannot be read. */
static int unread(const char *name)
{
    fprintf(stderr, "sheet: %s: %s\n", name, strerror(errno));
    return FAILED;
}

/* One tape, and its sheet or its refusal on standard output. */
static int work(const char *name, FILE *file)
{
    uint8_t tape[TAPE];
    uint8_t text[VAS_SHEET]; /* with a byte less the answer would be refusal 1 */
    size_t place = 0, length = 0;
    size_t tape_len = fread(tape, 1, sizeof tape, file);

    if (ferror(file))
        return unread(name);

    /* One call for all: it reads the tape, adjusts the traverse and writes the text. The number is
     * 0 or says which of the nine refusals it is; place says at which byte of the tape. For a
     * single tape vas_sheet does the same without a table; it then reads the library's own. */
    uint32_t number = vas_sheet_in(sines, tape, tape_len, text, sizeof text, &place, &length);

    if (number != 0) {
        printf("REFUSED %u\n", (unsigned)number);
        fprintf(stderr, "sheet: refusal %u at byte %zu of %s\n", (unsigned)number, place, name);
        return REFUSED;
    }
    /* The text has no 0 after it: its length says where it ends. */
    fwrite(text, 1, length, stdout);
    return PRINTED;
}

/* The tape of a file. */
static int work_file(const char *name)
{
    FILE *file = fopen(name, "rb");
    if (file == NULL)
        return unread(name);
    int end = work(name, file);
    fclose(file);
    return end;
}

int main(int argc, char **argv)
{
    int end = PRINTED;

    /* The table is taken once, and lent for every tape. */
    vas_table(sines);
    if (argc < 2)
        end = work("standard input", stdin);
    for (int i = 1; i < argc; i++) {
        int one = work_file(argv[i]);
        if (one > end)
            end = one;
    }

    if (fflush(stdout) != 0 || ferror(stdout)) {
        perror("sheet: standard output");
        return FAILED;
    }
    return end;
}
