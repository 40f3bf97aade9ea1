/* Texts: what is read, what a model declares, refusals 1 to 8 of every call, and the limits. */
#include "check.h"
#include <stdio.h>

/* The accepted text of docs/REFUSALS.md, whose lines the rows change one at a time. */
static const char BASE[] =
    "locations=2\ninit=0\ntarget=1\nclocks=2\nvars=2\nvar=3,0\nvar=3,0\ninv=-\ninv=-\nedges=1\n"
    "from=0\nto=1\nlabel=0\nwhen=-\nset=-\nreset=-\n";

static const struct {
    size_t line;
    const char *changed;
    uint8_t number;
} ROWS[] = {
    {2, "target=1", WIRDOKU_NO_SUCH_LINE},
    {2, "init", WIRDOKU_NO_SUCH_LINE},
    {13, "when=-", WIRDOKU_NO_SUCH_LINE},
    {13, "Label=1", WIRDOKU_NO_SUCH_LINE},
    {1, "locations=02", WIRDOKU_NOT_OF_FORM},
    {1, "locations=1000", WIRDOKU_NOT_OF_FORM},
    {8, "inv=v0<3", WIRDOKU_NOT_OF_FORM},
    {8, "inv=x0!=3", WIRDOKU_NOT_OF_FORM},
    {13, "label=", WIRDOKU_NOT_OF_FORM},
    {13, "label=-", WIRDOKU_NOT_OF_FORM},
    {13, "label=015", WIRDOKU_NOT_OF_FORM},
    {13, "label=1000", WIRDOKU_NOT_OF_FORM},
    {13, "label=x1", WIRDOKU_NOT_OF_FORM},
    {15, "set=v0:=v1-0", WIRDOKU_NOT_OF_FORM},
    {16, "reset=-\r", WIRDOKU_NOT_OF_FORM},
    {16, "reset=x0:=0", WIRDOKU_NOT_OF_FORM},
    {16, "reset=x0:=x1+0", WIRDOKU_NOT_OF_FORM},
    {16, "reset=x0=x1", WIRDOKU_NOT_OF_FORM},
    {16, "reset=x0:=x1000", WIRDOKU_NOT_OF_FORM},
    {16, "reset=x0:=x1,", WIRDOKU_NOT_OF_FORM},
    {1, "locations=17", WIRDOKU_OUT_OF_RANGE},
    {7, "var=3,4", WIRDOKU_OUT_OF_RANGE},
    {8, "inv=x0<=31", WIRDOKU_OUT_OF_RANGE},
    {13, "label=16", WIRDOKU_OUT_OF_RANGE},
    {13, "label=999", WIRDOKU_OUT_OF_RANGE},
    {3, "target=2", WIRDOKU_NOT_DECLARED},
    {16, "reset=x2", WIRDOKU_NOT_DECLARED},
    {16, "reset=x0:=x2", WIRDOKU_NOT_DECLARED},
    {16, "reset=x2:=x0", WIRDOKU_NOT_DECLARED},
    {16, "reset=x0:=x999", WIRDOKU_NOT_DECLARED},
    {15, "set=v0:=v999+0", WIRDOKU_NOT_DECLARED},
    {15, "set=v1:=1,v0:=1,v1:=0", WIRDOKU_SET_TWICE_OR_NOT_RISING},
    {16, "reset=x1,x0", WIRDOKU_SET_TWICE_OR_NOT_RISING},
    {16, "reset=x0,x0", WIRDOKU_SET_TWICE_OR_NOT_RISING},
    {16, "reset=x1:=x0,x0", WIRDOKU_SET_TWICE_OR_NOT_RISING},
    {16, "reset=x0:=x1,x0", WIRDOKU_SET_TWICE_OR_NOT_RISING},
    {14, "when=v0>0,v0>0,v0>0,v0>0,v0>0", WIRDOKU_TOO_MANY_ATOMS},
    {8, "inv=x0<31,v9=1", WIRDOKU_NOT_OF_FORM},
    {8, "inv=x7<31,x0<1,x0<1,x0<1,x0<1", WIRDOKU_TOO_MANY_ATOMS},
    {8, "inv=x7<31", WIRDOKU_OUT_OF_RANGE},
    {14, "when=v9<40", WIRDOKU_OUT_OF_RANGE},
    {14, "when=v9<31,x0<31", WIRDOKU_OUT_OF_RANGE},
    {15, "set=v1:=1,v1:=1,x", WIRDOKU_NOT_OF_FORM},
    {15, "set=v0:=1,v1:=1,v0:=1,v1:=1,v0:=32", WIRDOKU_OUT_OF_RANGE},
    {15, "set=v1:=1,v1:=v9+32", WIRDOKU_OUT_OF_RANGE},
    {15, "set=v1:=1,v1:=v9+0", WIRDOKU_NOT_DECLARED},
    {15, "set=v0:=1,v1:=1,v0:=1,v1:=1,v0:=1", WIRDOKU_SET_TWICE_OR_NOT_RISING},
    {16, "reset=x0,x0,x9", WIRDOKU_NOT_DECLARED},
    {16, "reset=x0,x0,x9,", WIRDOKU_NOT_OF_FORM},
    {16, "reset=x1:=x0,x0:=x9", WIRDOKU_NOT_DECLARED},
    {16, "reset=x1:=x9,x0:=0", WIRDOKU_NOT_OF_FORM},
};

/* Lines of that text that are accepted. */
static const struct {
    size_t line;
    const char *changed;
} TAKEN[] = {
    {13, "label=1"},
    {15, "set=v1:=1,v0:=1"},
    {16, "reset=x0:=x1"},
    {16, "reset=x0:=x0"},
    {16, "reset=x0,x1:=x0"},
    {16, "reset=x0:=x1,x1:=x0"},
};

/* Every call with a refused text: its number and line, zeros beside them, the given state, and lent buffers as they were. */
static void refused(const char *name, struct text t, uint8_t number, size_t line) {
    const struct wirdoku_state given = slots_of(0x11, 0x12131415, 0x16171819), zeros = state_of(0, 0, 0);
    const uint8_t run[1] = {0}, assignment[2] = {1, 0};
    struct text input = joined(text_of("bound=1\n"), t);
    int32_t *words = lent_words(60);
    uint8_t *bytes = lent_bytes(60);
    check_answer(name, wirdoku_read(t.at, t.length), number, line);
    check_shape(name, wirdoku_shape(t.at, t.length), refused_shape(number, line));
    check_sizes(name, wirdoku_counts(t.at, t.length, 1), number, line, 0, 0, 0);
    check_sizes(name, wirdoku_counts(t.at, t.length, 65), number, line, 0, 0, 0);
    check_sizes(name, wirdoku_emit(t.at, t.length, 1, words, 60), number, line, 0, 0, 0);
    check_sizes(name, wirdoku_size(input.at, input.length, words, 60), number, line, 0, 0, 0);
    check_file(name, wirdoku_dimacs(t.at, t.length, 1, bytes, 60), number, line, 0);
    check_file(name, wirdoku_dimacs(t.at, t.length, 65, bytes, 60), number, line, 0);
    check_state(name, wirdoku_initial(t.at, t.length), number, line, zeros);
    check_state(name, wirdoku_step(t.at, t.length, given, 20), number, line, given);
    check_answer(name, wirdoku_walk(t.at, t.length, run, 1), number, line);
    check_answer(name, wirdoku_assignment_to_run(t.at, t.length, 1, assignment, 2, bytes, 60), number, line);
    check_answer(name, wirdoku_run_to_assignment(t.at, t.length, run, 1, bytes, 60), number, line);
    check(name, words_kept(words, 0, 60) && bytes_kept(bytes, 0, 60));
}

static void refusals(void) {
    struct text a = file_text("models/a.txt"), base = text_of(BASE);
    char name[128];
    check_answer("the accepted text of the rows", wirdoku_read(base.at, base.length), WIRDOKU_ACCEPTED, 0);
    for (size_t i = 0; i < sizeof TAKEN / sizeof *TAKEN; i++) {
        struct text t = with_line(base, TAKEN[i].line, TAKEN[i].changed);
        check_answer(TAKEN[i].changed, wirdoku_read(t.at, t.length), WIRDOKU_ACCEPTED, 0);
    }
    for (size_t i = 0; i < sizeof ROWS / sizeof *ROWS; i++) {
        snprintf(name, sizeof name, "line %zu: %s", ROWS[i].line, ROWS[i].changed);
        refused(name, with_line(base, ROWS[i].line, ROWS[i].changed), ROWS[i].number, ROWS[i].line);
    }
    struct text cut = {a.at, a.length - 1};
    refused("no LF at the end", joined(cut, text_of("")), WIRDOKU_NO_SUCH_LINE, 14);
    refused("the empty text", text_of(""), WIRDOKU_NO_SUCH_LINE, 1);
    refused("an LF left", joined(a, line_feeds(1)), WIRDOKU_BYTES_LEFT, 15);
    refused("as long as a text may be", joined(a, line_feeds(WIRDOKU_MAX_TEXT - a.length)), WIRDOKU_BYTES_LEFT, 15);
    refused("longer", joined(a, line_feeds(WIRDOKU_MAX_TEXT + 1 - a.length)), WIRDOKU_TEXT_TOO_LONG, 0);
}

/* A model with another number in every field of its shape. */
static void shapes(void) {
    struct text b = file_text("models/logger_b.txt");
    const struct wirdoku_shape shape_b = {
        .locations = 4, .initial = 0, .target = 3, .clocks = 1, .counters = 1, .edges = 3, .ceiling = 4, .state = 11, .choices = 8};
    check_shape("P6 B: M=4, S=11, H=8", wirdoku_shape(b.at, b.length), shape_b);
    struct text other = declaring(9, 4, 3, 6, 7, "x0<=9");
    other = with_line(with_line(other, 2, "init=8"), 3, "target=5");
    const struct wirdoku_shape shape = {.locations = 9, .initial = 8, .target = 5, .clocks = 4, .counters = 3, .edges = 7, .ceiling = 10,
                                        .state = 9 + 3 * 7 + 4 * 11, .choices = 11 + 7};
    check_shape("another number in every field", wirdoku_shape(other.at, other.length), shape);
}

/* The text is accepted, or refused at a line. */
static void read_as(const char *name, struct text t, uint8_t number, size_t line) {
    check_answer(name, wirdoku_read(t.at, t.length), number, line);
}

static void declared_limits(void) {
    const unsigned l = WIRDOKU_MAX_LOCATIONS, x = WIRDOKU_MAX_CLOCKS, v = WIRDOKU_MAX_COUNTERS, e = WIRDOKU_MAX_EDGES;
    const unsigned top = WIRDOKU_MAX_COUNTER_VALUE;
    struct text full = declaring(l, x, v, top, e, "-");
    const struct wirdoku_shape shape = {
        .locations = l, .clocks = x, .counters = v, .edges = e, .ceiling = 1, .state = l + v * (top + 1) + x * 2, .choices = 2 + e};
    check_shape("as much as a model may declare", wirdoku_shape(full.at, full.length), shape);
    read_as("no location", declaring(0, x, v, top, e, "-"), WIRDOKU_OUT_OF_RANGE, 1);
    read_as("a location more", declaring(l + 1, x, v, top, e, "-"), WIRDOKU_OUT_OF_RANGE, 1);
    read_as("a clock more", declaring(l, x + 1, v, top, e, "-"), WIRDOKU_OUT_OF_RANGE, 4);
    read_as("a counter more", declaring(l, x, v + 1, top, e, "-"), WIRDOKU_OUT_OF_RANGE, 5);
    read_as("a greater counter", declaring(l, x, v, top + 1, e, "-"), WIRDOKU_OUT_OF_RANGE, 6);
    read_as("an edge more", declaring(l, x, v, top, e + 1, "-"), WIRDOKU_OUT_OF_RANGE, 6 + v + l);
}

/* An item's text with the limit in it, and with one more. */
static void at_limit(size_t line, const char *form, unsigned limit) {
    char name[128];
    for (unsigned more = 0; more < 2; more++) {
        snprintf(name, sizeof name, form, limit + more);
        read_as(name, with_line(text_of(BASE), line, name), more ? WIRDOKU_OUT_OF_RANGE : WIRDOKU_ACCEPTED, more ? line : 0);
    }
}

static void item_limits(void) {
    at_limit(8, "inv=x0<=%u", WIRDOKU_MAX_CLOCK_CONSTANT);
    at_limit(13, "label=%u", WIRDOKU_MAX_LABEL);
    at_limit(14, "when=x1>%u", WIRDOKU_MAX_CLOCK_CONSTANT);
    at_limit(14, "when=v1!=%u", WIRDOKU_MAX_COUNTER_VALUE);
    at_limit(15, "set=v0:=%u", WIRDOKU_MAX_COUNTER_VALUE);
    at_limit(15, "set=v0:=v1+%u", WIRDOKU_MAX_COUNTER_VALUE);
    at_limit(15, "set=v0:=v1-%u", WIRDOKU_MAX_COUNTER_VALUE);
    char atoms[128];
    for (size_t count = WIRDOKU_MAX_ATOMS; count <= WIRDOKU_MAX_ATOMS + 1; count++) {
        size_t n = 0;
        for (size_t i = 0; i < count; i++)
            n += snprintf(atoms + n, sizeof atoms - n, "%sx0<9", i == 0 ? "inv=" : ",");
        int taken = count == WIRDOKU_MAX_ATOMS;
        read_as(atoms, with_line(text_of(BASE), 8, atoms), taken ? WIRDOKU_ACCEPTED : WIRDOKU_TOO_MANY_ATOMS, taken ? 0 : 8);
    }
}

/* An empty slice may be NULL and 0. */
static void nulls(void) {
    const struct wirdoku_state given = slots_of(7, 0x01020304, 0x05060809), zeros = state_of(0, 0, 0);
    struct text a = with_line(file_text("models/a.txt"), 3, "target=0");
    check_answer("no text: read", wirdoku_read(NULL, 0), WIRDOKU_NO_SUCH_LINE, 1);
    check_shape("no text: shape", wirdoku_shape(NULL, 0), refused_shape(WIRDOKU_NO_SUCH_LINE, 1));
    check_sizes("no text: counts", wirdoku_counts(NULL, 0, 1), WIRDOKU_NO_SUCH_LINE, 1, 0, 0, 0);
    check_sizes("no text: emit", wirdoku_emit(NULL, 0, 1, NULL, 0), WIRDOKU_NO_SUCH_LINE, 1, 0, 0, 0);
    check_file("no text: dimacs", wirdoku_dimacs(NULL, 0, 1, NULL, 0), WIRDOKU_NO_SUCH_LINE, 1, 0);
    check_sizes("no input: size", wirdoku_size(NULL, 0, NULL, 0), WIRDOKU_NO_BOUND_LINE, 0, 0, 0, 0);
    check_state("no text: initial", wirdoku_initial(NULL, 0), WIRDOKU_NO_SUCH_LINE, 1, zeros);
    check_state("no text: step", wirdoku_step(NULL, 0, given, 3), WIRDOKU_NO_SUCH_LINE, 1, given);
    check_answer("no text: walk", wirdoku_walk(NULL, 0, NULL, 0), WIRDOKU_NO_SUCH_LINE, 1);
    check_answer("no text: assignment to run", wirdoku_assignment_to_run(NULL, 0, 1, NULL, 0, NULL, 0), WIRDOKU_NO_SUCH_LINE, 1);
    check_answer("no text: run to assignment", wirdoku_run_to_assignment(NULL, 0, NULL, 0, NULL, 0), WIRDOKU_NO_SUCH_LINE, 1);
    check_sizes("no buffer: emit", wirdoku_emit(a.at, a.length, 0, NULL, 0), WIRDOKU_WORDS_TOO_SHORT, 0, 0, 0, 10);
    check_file("no buffer: dimacs", wirdoku_dimacs(a.at, a.length, 0, NULL, 0), WIRDOKU_FILE_TOO_SHORT, 0, 32);
    check_answer("no run: walk", wirdoku_walk(a.at, a.length, NULL, 0), WIRDOKU_ACCEPTED, 0);
    check_answer("no assignment", wirdoku_assignment_to_run(a.at, a.length, 0, NULL, 0, NULL, 0), WIRDOKU_ASSIGNMENT_LENGTH, 0);
    check_answer("no run: run to assignment", wirdoku_run_to_assignment(a.at, a.length, NULL, 0, NULL, 0), WIRDOKU_ASSIGNMENT_TOO_SHORT, 0);
    const uint8_t start[2] = {1, 0};
    check_answer("no run buffer at bound 0", wirdoku_assignment_to_run(a.at, a.length, 0, start, 2, NULL, 0), WIRDOKU_ACCEPTED, 0);
}

void text_tests(void) {
    refusals();
    shapes();
    declared_limits();
    item_limits();
    nulls();
}
