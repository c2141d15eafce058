/* The proved desk beside plain C, in one program and on the same tapes: first whether all answers
 * are equal, then what a call costs: by a lent table of sines, in plain C, and by a table of the
 * call's own. That is its time, printed as tables, where nothing else is asked for:
 *
 *     --csv        lines for plot.py in place of the tables
 *     --emulated   says beside the times that the machine is not a real one
 *     --stack      the bytes of stack that a call takes, in place of its time
 *     --marked     calls everything once, between calls of `mark`, for `run` to count instructions
 *     --counted    takes the costs so counted from standard input, in the same order
 */
#include <math.h>
#include <stdbool.h>
#include <stdio.h>
#include <stdlib.h>
#include <string.h>
#include <time.h>

#include "plain.h"
#include "stack.h"
#include "tapes.h"
#include "vastrudhil.h"

static struct {
    bool csv, emulated, stack, marked, counted;
} asked;

static uint32_t sines[VAS_TABLE]; /* the table that is lent */

/* All that a call may write. */
struct answer {
    uint32_t number;
    size_t place;
    size_t length;
    int64_t figures[VAS_FIGURES];
    int64_t words[VAS_WORDS];
    uint8_t text[VAS_SHEET];
};

typedef void call(const struct tape *, struct answer *);

static void traverse_lent(const struct tape *t, struct answer *a) {
    a->number =
        vas_traverse_in(sines, t->bytes, t->length, a->words, VAS_WORDS, &a->place, a->figures);
}

static void traverse_plain(const struct tape *t, struct answer *a) {
    a->number = plain_traverse(t->bytes, t->length, a->words, VAS_WORDS, &a->place, a->figures);
}

static void traverse_own(const struct tape *t, struct answer *a) {
    a->number = vas_traverse(t->bytes, t->length, a->words, VAS_WORDS, &a->place, a->figures);
}

static void sheet_lent(const struct tape *t, struct answer *a) {
    a->number = vas_sheet_in(sines, t->bytes, t->length, a->text, VAS_SHEET, &a->place, &a->length);
}

static void sheet_plain(const struct tape *t, struct answer *a) {
    a->number = plain_sheet(t->bytes, t->length, a->text, VAS_SHEET, &a->place, &a->length);
}

static void sheet_own(const struct tape *t, struct answer *a) {
    a->number = vas_sheet(t->bytes, t->length, a->text, VAS_SHEET, &a->place, &a->length);
}

/* Of the steps that need a sine, one for the sine and one for a move; what each tells is kept as a
 * figure. They have no plain C beside them. */
enum { ANGLE = 7508397, DISTANCE = 5387658 };

static void sine_lent(const struct tape *t, struct answer *a) {
    (void)t;
    a->number = vas_sine_in(sines, ANGLE, a->figures);
}

static void sine_own(const struct tape *t, struct answer *a) {
    (void)t;
    a->number = vas_sine(ANGLE, a->figures);
}

static void latitude_lent(const struct tape *t, struct answer *a) {
    (void)t;
    a->number = vas_latitude_in(sines, DISTANCE, ANGLE, a->figures);
}

static void latitude_own(const struct tape *t, struct answer *a) {
    (void)t;
    a->number = vas_latitude(DISTANCE, ANGLE, a->figures);
}

/* The table that is lent, taken once more. */
static void table_own(const struct tape *t, struct answer *a) {
    (void)t;
    vas_table(sines);
    a->number = 0;
}

enum form { LENT, PLAIN, OWN, FORMS };

/* The desk by a lent table, plain C, and the desk where it is lent none. */
static const char *const form_names[FORMS] = {"lent", "plain C", "own"};

/* ---- The tables and their lines */

static call *const traverses[FORMS] = {traverse_lent, traverse_plain, traverse_own};
static call *const sheets[FORMS] = {sheet_lent, sheet_plain, sheet_own};
static call *const sine[FORMS] = {sine_lent, NULL, sine_own};
static call *const latitude[FORMS] = {latitude_lent, NULL, latitude_own};
static call *const table[FORMS] = {NULL, NULL, table_own};

struct table {
    const char *name, *title;
};

static const struct table traverse = {"traverse", "traverse"};
static const struct table sheet = {"sheet", "sheet"};
static const struct table refusals = {"refusals", "traverse refused"};
static const struct table no_sheets = {"no sheets", "sheet refused"};
static const struct table steps = {"steps", "step"};
static const struct table legs = {"legs", "traverse by legs, 2 rows"};
static const struct table rows = {"rows", "traverse by rows, 4 legs"};

/* Every line has a form by a table of its own; the others may be missing. */
struct line {
    const struct table *table;
    call *const *forms;
    char name[40];
    struct tape tape;
    uint32_t number; /* what it is to be answered with */
};

enum { MOST_LINES = 48 };
static struct line lines[MOST_LINES];
static size_t line_count;

static void add(const struct table *of, call *const *forms, const char *name, struct tape tape,
                uint32_t number) {
    struct line *line = &lines[line_count++];
    line->table = of;
    line->forms = forms;
    snprintf(line->name, sizeof line->name, "%s", name);
    line->tape = tape;
    line->number = number;
}

static void add_named(const struct table *of, call *const *forms) {
    add(of, forms, "4 legs 2 rows", traverse_tape(4, 2, NO_FAULT), 0);
    add(of, forms, "16 legs 2 rows", traverse_tape(16, 2, NO_FAULT), 0);
    add(of, forms, "64 legs 2 rows", traverse_tape(64, 2, NO_FAULT), 0);
    add(of, forms, "4 legs 600 rows", traverse_tape(4, 600, NO_FAULT), 0);
}

/* By how much of the tape is read and worked before it is refused. */
static void add_refused(const struct table *of, call *const *forms) {
    add(of, forms, "3 at byte 0", no_tape(), 3);
    add(of, forms, "4 at the close of 4 legs", traverse_tape(4, 2, WRONG_CLOSE), 4);
    add(of, forms, "4 at the close of 64 legs", traverse_tape(64, 2, WRONG_CLOSE), 4);
    add(of, forms, "4 at the close after 600 rows", traverse_tape(4, 600, WRONG_CLOSE), 4);
    add(of, forms, "8 after 64 legs", traverse_tape(64, 2, WRONG_AZIMUTH), 8);
    add(of, forms, "9 after 4 legs", traverse_tape(4, 2, WRONG_POINT), 9);
    add(of, forms, "9 after 64 legs", traverse_tape(64, 2, WRONG_POINT), 9);
}

static void add_growth(const struct table *of, uint32_t at, uint32_t with_legs,
                       uint32_t with_rows) {
    char name[16];
    uint32_t number = with_rows == 0 ? 7 : 0; /* no row for the latitude */
    snprintf(name, sizeof name, "%u", (unsigned)at);
    add(of, traverses, name, traverse_tape(with_legs, with_rows, NO_FAULT), number);
}

static void add_all(void) {
    add_named(&traverse, traverses);
    add_refused(&refusals, traverses);
    add_named(&sheet, sheets);
    add_refused(&no_sheets, sheets);
    add(&steps, sine, "sine", no_tape(), 0);
    add(&steps, latitude, "latitude", no_tape(), 0);
    add(&steps, table, "vas_table", no_tape(), 0);
    for (uint32_t n = 1; n <= 64; n *= 2)
        add_growth(&legs, n, n, 2);
    add_growth(&rows, 0, 4, 0);
    add_growth(&rows, 1, 4, 1);
    for (uint32_t n = 100; n <= 600; n += 100)
        add_growth(&rows, n, 4, n);
}

/* ---- Whether the answers are equal */

static struct answer answered(call *form, const struct tape *t) {
    struct answer a;
    memset(&a, 0x5a, sizeof a); /* what is left as it was is compared too */
    form(t, &a);
    return a;
}

/* Where two answers differ first; nothing where they are equal. */
static const char *difference(const struct answer *a, const struct answer *b) {
    if (a->number != b->number)
        return "number";
    if (a->place != b->place)
        return "place";
    if (memcmp(a->figures, b->figures, sizeof a->figures) != 0)
        return "figures";
    if (memcmp(a->words, b->words, sizeof a->words) != 0)
        return "words";
    if (a->length != b->length)
        return "length";
    return memcmp(a->text, b->text, sizeof a->text) != 0 ? "text" : NULL;
}

static void demand_equal(const struct line *line) {
    const char *title = line->table->title;
    struct answer own = answered(line->forms[OWN], &line->tape);
    if (own.number != line->number) {
        fprintf(stderr, "%s, %s: answered with %u\n", title, line->name, (unsigned)own.number);
        exit(1);
    }
    for (enum form f = 0; f < OWN; f++) {
        if (line->forms[f] == NULL)
            continue;
        struct answer other = answered(line->forms[f], &line->tape);
        const char *where = difference(&other, &own);
        if (where != NULL) {
            fprintf(stderr, "%s, %s: %s (%u at %zu) and %s (%u at %zu) differ in the %s\n", title,
                    line->name, form_names[f], (unsigned)other.number, other.place, form_names[OWN],
                    (unsigned)own.number, own.place, where);
            exit(1);
        }
    }
}

/* ---- What a call costs */

enum { ROUNDS = 5, PASSES = 8 };
static const double BATCH_NS = 2e6;

static double now_ns(void) {
    struct timespec t;
    clock_gettime(CLOCK_MONOTONIC, &t);
    return (double)t.tv_sec * 1e9 + (double)t.tv_nsec;
}

static double batch_ns(call *form, const struct tape *t, unsigned long calls) {
    static struct answer a;
    double before = now_ns();
    for (unsigned long i = 0; i < calls; i++)
        form(t, &a);
    return now_ns() - before;
}

/* Batches of all forms in turn, and the least time of each form: what disturbs one of them disturbs
 * its neighbours. */
static void time_calls(const struct line *line, double cost[FORMS]) {
    unsigned long calls[FORMS];
    for (enum form f = 0; f < FORMS; f++) {
        calls[f] = 1;
        while (line->forms[f] != NULL &&
               batch_ns(line->forms[f], &line->tape, calls[f]) < BATCH_NS)
            calls[f] *= 2;
    }
    for (int round = 0; round < ROUNDS; round++)
        for (enum form f = 0; f < FORMS; f++)
            if (line->forms[f] != NULL) {
                double ns = batch_ns(line->forms[f], &line->tape, calls[f]) / (double)calls[f];
                if (!(cost[f] <= ns)) /* so too where there is no cost yet */
                    cost[f] = ns;
            }
}

/* All lines in turn, some seconds apart, and again the least time: a machine may be disturbed for a
 * second or two. */
static void time_lines(double cost[][FORMS]) {
    for (int pass = 0; pass < PASSES; pass++)
        for (size_t i = 0; i < line_count; i++)
            time_calls(&lines[i], cost[i]);
}

struct asked_call {
    call *form;
    const struct tape *tape;
    struct answer answer;
};

static void call_asked(void *argument) {
    struct asked_call *asked_call = argument;
    asked_call->form(asked_call->tape, &asked_call->answer);
}

static void take_stacks(double cost[][FORMS]) {
    static struct asked_call one;
    for (size_t i = 0; i < line_count; i++)
        for (enum form f = 0; f < FORMS; f++)
            if (lines[i].forms[f] != NULL) {
                one.form = lines[i].forms[f];
                one.tape = &lines[i].tape;
                cost[i][f] = (double)stack_of(call_asked, &one);
            }
}

/* A name to find in a trace of the program, so neither inlined nor left out. */
__attribute__((noinline)) static void mark(void) {
    __asm__ volatile("");
}

static void mark_calls(const struct line *line) {
    static struct answer a;
    for (enum form f = 0; f < FORMS; f++)
        if (line->forms[f] != NULL) {
            mark();
            line->forms[f](&line->tape, &a);
            mark();
        }
}

static void take_counts(double cost[][FORMS]) {
    for (size_t i = 0; i < line_count; i++)
        for (enum form f = 0; f < FORMS; f++)
            if (lines[i].forms[f] != NULL && scanf("%lf", &cost[i][f]) != 1) {
                fputs("a count is missing\n", stderr);
                exit(1);
            }
}

/* ---- What is printed */

static const char *unit(void) {
    return asked.counted ? "instructions" : asked.stack ? "bytes of stack" : "nanoseconds";
}

static void print_first(void) {
    if (asked.csv)
        puts("table,at,unit,lent,plain C,lent x,own,own x,more");
    else
        printf("All answers are equal. Costs in %s a call: by a lent table, in plain C,\n"
               "and by a table of the call's own. x: times the plain C; more: own less lent.\n",
               unit());
    if (asked.emulated)
        fputs("Emulated: the times mean nothing, and their ratios are an indication only.\n",
              asked.csv ? stderr : stdout);
}

/* A table as a page in Markdown has it, so that it can be taken into docs/SPEED.md as it is. */
static void print_title(const char *title) {
    if (!asked.csv)
        printf("\n| %-29s | %8s | %8s | %8s | %8s | %8s | %8s |\n"
               "|-------------------------------|---------:|---------:|---------:|---------:|"
               "---------:|---------:|\n",
               title, form_names[LENT], form_names[PLAIN], "x, lent", form_names[OWN], "x, own",
               "more");
}

/* A cost or a ratio; nothing where a form is missing. */
static void print_cell(double cell, int decimals) {
    char text[24] = "";
    if (!isnan(cell))
        snprintf(text, sizeof text, "%.*f", decimals, cell);
    printf(asked.csv ? ",%s" : " %8s |", text);
}

static void print_costs(const struct line *line, const double cost[FORMS]) {
    double lent = cost[LENT], plain = cost[PLAIN], own = cost[OWN];
    if (asked.csv)
        printf("%s,%s,%s", line->table->name, line->name, unit());
    else
        printf("| %-29s |", line->name);
    print_cell(lent, 1);
    print_cell(plain, 1);
    print_cell(lent / plain, 2);
    print_cell(own, 1);
    print_cell(own / plain, 2);
    print_cell(own - lent, 1);
    putchar('\n');
    fflush(stdout);
}

static void print_all(void) {
    static double cost[MOST_LINES][FORMS];
    for (size_t i = 0; i < line_count; i++)
        for (enum form f = 0; f < FORMS; f++)
            cost[i][f] = NAN;
    if (asked.counted)
        take_counts(cost);
    else if (asked.stack)
        take_stacks(cost);
    else
        time_lines(cost);
    print_first();
    for (size_t i = 0; i < line_count; i++) {
        if (i == 0 || lines[i].table != lines[i - 1].table)
            print_title(lines[i].table->title);
        print_costs(&lines[i], cost[i]);
    }
}

static void ask(const char *argument) {
    if (strcmp(argument, "--csv") == 0)
        asked.csv = true;
    else if (strcmp(argument, "--emulated") == 0)
        asked.emulated = true;
    else if (strcmp(argument, "--stack") == 0)
        asked.stack = true;
    else if (strcmp(argument, "--marked") == 0)
        asked.marked = true;
    else if (strcmp(argument, "--counted") == 0)
        asked.counted = true;
    else {
        fprintf(stderr, "not known: %s\n", argument);
        exit(2);
    }
}

int main(int argc, char **argv) {
    for (int i = 1; i < argc; i++)
        ask(argv[i]);
    vas_table(sines);
    add_all();
    for (size_t i = 0; i < line_count; i++)
        demand_equal(&lines[i]);
    if (!asked.marked)
        print_all();
    else
        for (size_t i = 0; i < line_count; i++)
            mark_calls(&lines[i]);
    return 0;
}
