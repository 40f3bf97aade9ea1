/* Two texts composed: the worked pairs, each text refused in either place, 38 on both sides of each limit, what a step is for each part,
 * and every call held to the call on one text that is the composed model. */
#include "check.h"
#include <stdio.h>
#include <string.h>

/* A logger and a watchdog that share label 3, and the text of the two composed. */
static const char L[] =
    "locations=2\ninit=0\ntarget=1\nclocks=1\nvars=1\nvar=2,0\ninv=x0<=1\ninv=-\nedges=2\n"
    "from=0\nto=0\nlabel=0\nwhen=-\nset=v0:=v0+1\nreset=x0\n"
    "from=0\nto=1\nlabel=3\nwhen=x0>=1,v0>=1\nset=-\nreset=-\n";
static const char W[] =
    "locations=2\ninit=0\ntarget=1\nclocks=1\nvars=1\nvar=1,1\ninv=-\ninv=x0<=4\nedges=2\n"
    "from=0\nto=1\nlabel=3\nwhen=x0>=2\nset=v0:=v0-1\nreset=x0\n"
    "from=1\nto=0\nlabel=5\nwhen=-\nset=-\nreset=x0:=x0\n";
static const char L_WITH_W[] =
    "locations=4\ninit=0\ntarget=3\nclocks=2\nvars=2\nvar=2,0\nvar=1,1\ninv=x0<=1\ninv=x0<=1,x1<=4\ninv=-\ninv=x1<=4\nedges=5\n"
    "from=0\nto=0\nlabel=0\nwhen=-\nset=v0:=v0+1\nreset=x0\n"
    "from=1\nto=1\nlabel=0\nwhen=-\nset=v0:=v0+1\nreset=x0\n"
    "from=1\nto=0\nlabel=5\nwhen=-\nset=-\nreset=x1:=x1\n"
    "from=3\nto=2\nlabel=5\nwhen=-\nset=-\nreset=x1:=x1\n"
    "from=0\nto=3\nlabel=3\nwhen=x0>=1,v0>=1,x1>=2\nset=v1:=v1-1\nreset=x1\n";

/* A pair of texts, and the text of the composed model. */
struct composed {
    struct text a, b, c;
};

#define BOTH(p) (p).a.at, (p).a.length, (p).b.at, (p).b.length

static struct composed worked(void) {
    struct composed w = {text_of(L), text_of(W), text_of(L_WITH_W)};
    return w;
}

/* The list, its file and their totals are those of the composed text; buffers on both sides of their lengths. */
static void lists(struct composed p, size_t bound) {
    struct wirdoku_sizes s = wirdoku_counts(p.c.at, p.c.length, bound);
    check_sizes("pair: counts", wirdoku_pair_counts(BOTH(p), bound), s.number, s.line, s.variables, s.clauses, s.words);
    int32_t *list = lent_words(s.words), *out = lent_words(s.words + 1), *few = lent_words(s.words - 1);
    wirdoku_emit(p.c.at, p.c.length, bound, list, s.words);
    check_sizes("pair: emit", wirdoku_pair_emit(BOTH(p), bound, out, s.words + 1), WIRDOKU_ACCEPTED, 0, s.variables, s.clauses, s.words);
    check("pair: words, nothing beyond", memcmp(out, list, s.words * sizeof *out) == 0 && words_kept(out, s.words, s.words + 1));
    check_sizes("pair: too few words", wirdoku_pair_emit(BOTH(p), bound, few, s.words - 1), WIRDOKU_WORDS_TOO_SHORT, 0, 0, 0, s.words);
    check("pair: too few words, untouched", words_kept(few, 0, s.words - 1));
    size_t bytes = wirdoku_dimacs(p.c.at, p.c.length, bound, NULL, 0).bytes;
    uint8_t *file = lent_bytes(bytes), *same = lent_bytes(bytes + 1), *short_of = lent_bytes(bytes - 1);
    wirdoku_dimacs(p.c.at, p.c.length, bound, file, bytes);
    check_file("pair: file", wirdoku_pair_dimacs(BOTH(p), bound, same, bytes + 1), WIRDOKU_ACCEPTED, 0, bytes);
    check("pair: its bytes, nothing beyond", memcmp(same, file, bytes) == 0 && bytes_kept(same, bytes, bytes + 1));
    check_file("pair: a byte too few", wirdoku_pair_dimacs(BOTH(p), bound, short_of, bytes - 1), WIRDOKU_FILE_TOO_SHORT, 0, bytes);
    check("pair: a byte too few, untouched", bytes_kept(short_of, 0, bytes - 1));
}

static void shapes(struct composed p) {
    const struct wirdoku_shape shape = {
        .locations = 4, .initial = 0, .target = 3, .clocks = 2, .counters = 2, .edges = 5, .ceiling = 5, .state = 21, .choices = 11};
    check_pair("L with W", wirdoku_pair_read(BOTH(p)), WIRDOKU_ACCEPTED, 0, 0);
    check_shape("L with W: shape", wirdoku_pair_shape(BOTH(p)), shape);
    check_sizes("L with W at 1", wirdoku_pair_counts(BOTH(p), 1), WIRDOKU_ACCEPTED, 0, 53, 382, 1361);
    struct text one = with_line(file_text("models/a.txt"), 11, "label=1"), two = with_line(one, 11, "label=2");
    struct text a = file_text("models/a.txt");
    check_sizes("A with A", wirdoku_pair_counts(a.at, a.length, a.at, a.length, 1), WIRDOKU_ACCEPTED, 0, 14, 48, 158);
    check_sizes("A with A, one label", wirdoku_pair_counts(one.at, one.length, one.at, one.length, 1), WIRDOKU_ACCEPTED, 0, 11, 30, 101);
    check_sizes("A with A, two labels", wirdoku_pair_counts(one.at, one.length, two.at, two.length, 1), WIRDOKU_ACCEPTED, 0, 14, 48, 158);
    struct text first = with_line(with_line(declaring(3, 1, 1, 6, 2, "x0<=9"), 2, "init=2"), 3, "target=1");
    struct text second = with_line(declaring(4, 3, 2, 4, 1, "x2<=3,x1<=2"), 2, "init=3");
    const struct wirdoku_shape other = {.locations = 12, .initial = 11, .target = 4, .clocks = 4, .counters = 3, .edges = 11, .ceiling = 10,
                                        .state = 12 + 7 + 2 * 5 + 4 * 11, .choices = 11 + 11};
    check_shape("another number in every field", wirdoku_pair_shape(first.at, first.length, second.at, second.length), other);
}

static void steps(struct composed p) {
    check_state("pair: initial", wirdoku_pair_initial(BOTH(p)), WIRDOKU_ACCEPTED, 0, slots_of(0, 0x00010000, 0));
    for (unsigned byte = 0; byte < 12; byte++) {
        for (unsigned location = 0; location < 5; location++) {
            const struct wirdoku_state state = slots_of((uint8_t)location, 0x01010000, 0x01020000);
            struct wirdoku_state_answer same = wirdoku_step(p.c.at, p.c.length, state, (uint8_t)byte);
            check_state("pair: as the composed text", wirdoku_pair_step(BOTH(p), state, (uint8_t)byte), same.number, 0, same.state);
        }
    }
    const struct wirdoku_state before = slots_of(0, 0x01010000, 0x01020000), after = slots_of(3, 0x01000000, 0x01000000);
    check_state("pair: both move", wirdoku_pair_step(BOTH(p), before, 10), WIRDOKU_ACCEPTED, 0, after);
    check_state("pair: no such state", wirdoku_pair_step(BOTH(p), slots_of(4, 0, 0), 11), WIRDOKU_NO_SUCH_STATE, 0, slots_of(4, 0, 0));
    check_state("pair: no such step", wirdoku_pair_step(BOTH(p), after, 11), WIRDOKU_NO_SUCH_STEP, 0, after);
    check_state("pair: not allowed", wirdoku_pair_step(BOTH(p), after, 10), WIRDOKU_STEP_NOT_ALLOWED, 0, after);
}

static void parts(struct composed p) {
    static const struct {
        uint8_t first, second;
    } EXPECTED[] = {{0, 0}, {1, 1}, {2, 2}, {2, 3}, {2, 4}, {2, 5}, {3, WIRDOKU_STAYS}, {3, WIRDOKU_STAYS}, {WIRDOKU_STAYS, 7}, {WIRDOKU_STAYS, 7}, {4, 6}};
    for (unsigned byte = 0; byte < 256; byte++) {
        struct wirdoku_part_steps found = wirdoku_pair_parts(BOTH(p), (uint8_t)byte);
        if (byte < sizeof EXPECTED / sizeof *EXPECTED)
            check_parts("pair: parts of a step", found, WIRDOKU_ACCEPTED, 0, EXPECTED[byte].first, EXPECTED[byte].second);
        else
            check_parts("pair: no such step", found, WIRDOKU_NO_SUCH_STEP, 0, 0, 0);
    }
}

static struct wirdoku_answer walked(struct composed p, const char *bytes, size_t length) {
    struct text run = {(const uint8_t *)bytes, length};
    run = joined(run, text_of(""));
    return wirdoku_pair_walk(BOTH(p), run.at, run.length);
}

static void runs(struct composed p) {
    check_answer("pair: a shortest run", walked(p, "\1\6\1\12", 4), WIRDOKU_ACCEPTED, 0);
    check_answer("pair: too early", walked(p, "\1\6\0\12", 4), WIRDOKU_STEP_NOT_ALLOWED, 4);
    check_answer("pair: no such step", walked(p, "\1\6\13\12", 4), WIRDOKU_NO_SUCH_STEP, 3);
    check_answer("pair: not in the target", walked(p, "\1\6\1", 3), WIRDOKU_NOT_IN_TARGET, 0);
    uint8_t *zeros = block(65);
    memset(zeros, 0, 65);
    check_answer("pair: 65 steps", wirdoku_pair_walk(BOTH(p), zeros, 65), WIRDOKU_ABOVE_64, 0);
    struct text w = with_line(with_line(file_text("models/a.txt"), 4, "clocks=1"), 6, "inv=x0>=1");
    check_answer("pair: no start", wirdoku_pair_walk(p.a.at, p.a.length, w.at, w.length, zeros, 0), WIRDOKU_NO_START, 0);
}

static void assignments(struct composed p) {
    const uint8_t run[4] = {1, 6, 1, 10};
    size_t n = wirdoku_counts(p.c.at, p.c.length, 4).variables;
    uint8_t *assignment = lent_bytes(n + 1), *same = lent_bytes(n), *back = lent_bytes(5);
    check_answer("pair: a byte too few", wirdoku_pair_run_to_assignment(BOTH(p), run, 4, assignment, n - 1), WIRDOKU_ASSIGNMENT_TOO_SHORT, 0);
    check("pair: a byte too few, untouched", bytes_kept(assignment, 0, n + 1));
    check_answer("pair: to assignment", wirdoku_pair_run_to_assignment(BOTH(p), run, 4, assignment, n + 1), WIRDOKU_ACCEPTED, 0);
    wirdoku_run_to_assignment(p.c.at, p.c.length, run, 4, same, n);
    check("pair: the assignment, nothing beyond", memcmp(assignment, same, n) == 0 && bytes_kept(assignment, n, n + 1));
    check_answer("pair: wrong length", wirdoku_pair_assignment_to_run(BOTH(p), 4, assignment, n - 1, back, 5), WIRDOKU_ASSIGNMENT_LENGTH, 0);
    check_answer("pair: no room", wirdoku_pair_assignment_to_run(BOTH(p), 4, assignment, n, back, 3), WIRDOKU_RUN_TOO_SHORT, 0);
    check("pair: refused, untouched", bytes_kept(back, 0, 5));
    check_answer("pair: and back", wirdoku_pair_assignment_to_run(BOTH(p), 4, assignment, n, back, 5), WIRDOKU_ACCEPTED, 0);
    check("pair: the run, nothing beyond", memcmp(back, run, 4) == 0 && bytes_kept(back, 4, 5));
    assignment[n - 1] ^= 1;
    struct wirdoku_answer of_text = wirdoku_assignment_to_run(p.c.at, p.c.length, 4, assignment, n, back, 5);
    check_answer("pair: a clause is false", wirdoku_pair_assignment_to_run(BOTH(p), 4, assignment, n, back, 5), WIRDOKU_CLAUSE_FALSE, of_text.place);
    assignment[9] = 2;
    check_answer("pair: byte 9 is 2", wirdoku_pair_assignment_to_run(BOTH(p), 4, assignment, n, back, 0), WIRDOKU_NOT_0_OR_1, 9);
}

/* Every call with two texts that are refused: number and line, zeros beside them, the given state, lent buffers as they were. */
static void refused(const char *name, struct text a, struct text b, uint8_t number, uint8_t text, size_t line) {
    const struct wirdoku_state given = slots_of(0x11, 0x12131415, 0x16171819), zeros = state_of(0, 0, 0);
    const uint8_t run[1] = {0}, assignment[2] = {1, 0};
    int32_t *words = lent_words(60);
    uint8_t *bytes = lent_bytes(60);
    check_pair(name, wirdoku_pair_read(a.at, a.length, b.at, b.length), number, text, line);
    check_shape(name, wirdoku_pair_shape(a.at, a.length, b.at, b.length), refused_shape(number, line));
    check_sizes(name, wirdoku_pair_counts(a.at, a.length, b.at, b.length, 65), number, line, 0, 0, 0);
    check_sizes(name, wirdoku_pair_emit(a.at, a.length, b.at, b.length, 1, words, 60), number, line, 0, 0, 0);
    check_file(name, wirdoku_pair_dimacs(a.at, a.length, b.at, b.length, 1, bytes, 60), number, line, 0);
    check_state(name, wirdoku_pair_initial(a.at, a.length, b.at, b.length), number, line, zeros);
    check_state(name, wirdoku_pair_step(a.at, a.length, b.at, b.length, given, 20), number, line, given);
    check_answer(name, wirdoku_pair_walk(a.at, a.length, b.at, b.length, run, 1), number, line);
    check_answer(name, wirdoku_pair_assignment_to_run(a.at, a.length, b.at, b.length, 1, assignment, 2, bytes, 60), number, line);
    check_answer(name, wirdoku_pair_run_to_assignment(a.at, a.length, b.at, b.length, run, 1, bytes, 60), number, line);
    check_parts(name, wirdoku_pair_parts(a.at, a.length, b.at, b.length, 0), number, line, 0, 0);
    check(name, words_kept(words, 0, 60) && bytes_kept(bytes, 0, 60));
}

static void refusals(struct composed p) {
    static const struct {
        size_t line;
        const char *changed;
        uint8_t number;
    } ROWS[] = {
        {2, "target=1", WIRDOKU_NO_SUCH_LINE}, {2, "init=00", WIRDOKU_NOT_OF_FORM}, {1, "locations=17", WIRDOKU_OUT_OF_RANGE},
        {3, "target=2", WIRDOKU_NOT_DECLARED}, {15, "reset=x0,x0", WIRDOKU_SET_TWICE_OR_NOT_RISING},
        {7, "inv=x0<1,x0<1,x0<1,x0<1,x0<1", WIRDOKU_TOO_MANY_ATOMS}, {21, "reset=-\n", WIRDOKU_BYTES_LEFT},
    };
    struct text large = declaring(16, 4, 4, 9, 32, "x0<9,x1<9,x2<9,x3<9");
    for (size_t i = 0; i < sizeof ROWS / sizeof *ROWS; i++) {
        struct text wrong = with_line(p.a, ROWS[i].line, ROWS[i].changed);
        size_t line = ROWS[i].line + (ROWS[i].number == WIRDOKU_BYTES_LEFT);
        refused(ROWS[i].changed, wrong, p.b, ROWS[i].number, 1, line);
        refused(ROWS[i].changed, p.b, wrong, ROWS[i].number, 2, line);
        refused(ROWS[i].changed, wrong, text_of("x"), ROWS[i].number, 1, line);
        refused(ROWS[i].changed, large, wrong, ROWS[i].number, 2, line);
    }
    struct text longer = line_feeds(WIRDOKU_MAX_TEXT + 1);
    refused("the first too long", longer, text_of("x"), WIRDOKU_TEXT_TOO_LONG, 1, 0);
    refused("the second too long", large, longer, WIRDOKU_TEXT_TOO_LONG, 2, 0);
    refused("too large together", large, large, WIRDOKU_TOO_LARGE_TOGETHER, 0, 0);
    refused("too large with a small one", large, p.a, WIRDOKU_TOO_LARGE_TOGETHER, 0, 0);
}

/* Two texts that compose, and two that are too large together by one thing alone. */
static void limit(const char *name, struct text a, struct text b, struct text c, struct text d) {
    check_pair(name, wirdoku_pair_read(a.at, a.length, b.at, b.length), WIRDOKU_ACCEPTED, 0, 0);
    check_pair(name, wirdoku_pair_read(c.at, c.length, d.at, d.length), WIRDOKU_TOO_LARGE_TOGETHER, 0, 0);
    check_pair(name, wirdoku_pair_read(d.at, d.length, c.at, c.length), WIRDOKU_TOO_LARGE_TOGETHER, 0, 0);
}

/* Edges of one label from 0 to 0, in a model of two locations. */
static struct text edges(size_t count, unsigned label, const char *when) {
    char head[128], edge[128];
    snprintf(head, sizeof head, "locations=2\ninit=0\ntarget=0\nclocks=1\nvars=0\ninv=-\ninv=-\nedges=%zu\n", count);
    snprintf(edge, sizeof edge, "from=0\nto=0\nlabel=%u\nwhen=%s\nset=-\nreset=-\n", label, when);
    return joined(text_of(head), repeated(edge, count));
}

static void limits(void) {
    struct text four = declaring(4, 0, 0, 0, 0, "-"), five = declaring(5, 0, 0, 0, 0, "-");
    limit("locations", four, four, four, five);
    limit("locations, 16 by 1", declaring(16, 0, 0, 0, 0, "-"), declaring(1, 0, 0, 0, 0, "-"), declaring(16, 0, 0, 0, 0, "-"), declaring(16, 0, 0, 0, 0, "-"));
    limit("clocks", declaring(1, 2, 0, 0, 0, "-"), declaring(1, 2, 0, 0, 0, "-"), declaring(1, 3, 0, 0, 0, "-"), declaring(1, 2, 0, 0, 0, "-"));
    limit("counters", declaring(1, 0, 2, 1, 0, "-"), declaring(1, 0, 2, 1, 0, "-"), declaring(1, 0, 3, 1, 0, "-"), declaring(1, 0, 2, 1, 0, "-"));
    limit("lone edges", edges(8, 0, "-"), edges(8, 0, "-"), edges(9, 0, "-"), edges(8, 0, "-"));
    limit("lone edges with labels", edges(8, 1, "-"), edges(8, 2, "-"), edges(9, 1, "-"), edges(8, 2, "-"));
    limit("pairs of edges", edges(4, 7, "-"), edges(8, 7, "-"), edges(3, 7, "-"), edges(11, 7, "-"));
    limit("pairs of edges, 256", edges(4, 7, "-"), edges(8, 7, "-"), edges(16, 7, "-"), edges(16, 7, "-"));
    struct text two = declaring(1, 1, 0, 0, 0, "x0<1,x0<2"), three = declaring(1, 1, 0, 0, 0, "x0<1,x0<2,x0<3");
    limit("atoms of an invariant", two, two, three, two);
    limit("atoms of a guard", edges(1, 3, "x0<1,x0<2"), edges(1, 3, "x0<1,x0<2"), edges(1, 3, "x0<1,x0<2,x0<3"), edges(1, 3, "x0<1,x0<2"));
    limit("the same edges under different labels", edges(1, 3, "x0<1,x0<2,x0<3"), edges(1, 4, "x0<1,x0<2"), edges(1, 3, "x0<1,x0<2,x0<3"), edges(1, 3, "x0<1,x0<2"));
}

/* An empty slice may be NULL and 0. */
static void nulls(struct composed p) {
    const struct wirdoku_state given = slots_of(7, 0x01020304, 0x05060809), zeros = state_of(0, 0, 0);
    struct text a = with_line(file_text("models/a.txt"), 3, "target=0");
    const uint8_t start[4] = {1, 0, 0, 0};
    check_pair("no texts: read", wirdoku_pair_read(NULL, 0, NULL, 0), WIRDOKU_NO_SUCH_LINE, 1, 1);
    check_pair("no second text: read", wirdoku_pair_read(p.a.at, p.a.length, NULL, 0), WIRDOKU_NO_SUCH_LINE, 2, 1);
    check_pair("no first text: read", wirdoku_pair_read(NULL, 0, p.a.at, p.a.length), WIRDOKU_NO_SUCH_LINE, 1, 1);
    check_shape("no texts: shape", wirdoku_pair_shape(NULL, 0, NULL, 0), refused_shape(WIRDOKU_NO_SUCH_LINE, 1));
    check_sizes("no texts: counts", wirdoku_pair_counts(NULL, 0, NULL, 0, 1), WIRDOKU_NO_SUCH_LINE, 1, 0, 0, 0);
    check_sizes("no texts: emit", wirdoku_pair_emit(NULL, 0, NULL, 0, 1, NULL, 0), WIRDOKU_NO_SUCH_LINE, 1, 0, 0, 0);
    check_file("no texts: dimacs", wirdoku_pair_dimacs(NULL, 0, NULL, 0, 1, NULL, 0), WIRDOKU_NO_SUCH_LINE, 1, 0);
    check_state("no texts: initial", wirdoku_pair_initial(NULL, 0, NULL, 0), WIRDOKU_NO_SUCH_LINE, 1, zeros);
    check_state("no texts: step", wirdoku_pair_step(NULL, 0, NULL, 0, given, 3), WIRDOKU_NO_SUCH_LINE, 1, given);
    check_answer("no texts: walk", wirdoku_pair_walk(NULL, 0, NULL, 0, NULL, 0), WIRDOKU_NO_SUCH_LINE, 1);
    check_answer("no texts: assignment to run", wirdoku_pair_assignment_to_run(NULL, 0, NULL, 0, 1, NULL, 0, NULL, 0), WIRDOKU_NO_SUCH_LINE, 1);
    check_answer("no texts: run to assignment", wirdoku_pair_run_to_assignment(NULL, 0, NULL, 0, NULL, 0, NULL, 0), WIRDOKU_NO_SUCH_LINE, 1);
    check_parts("no texts: parts", wirdoku_pair_parts(NULL, 0, NULL, 0, 0), WIRDOKU_NO_SUCH_LINE, 1, 0, 0);
    check_sizes("no buffer: emit", wirdoku_pair_emit(BOTH(p), 1, NULL, 0), WIRDOKU_WORDS_TOO_SHORT, 0, 0, 0, 1361);
    check("no buffer: dimacs", wirdoku_pair_dimacs(BOTH(p), 1, NULL, 0).number == WIRDOKU_FILE_TOO_SHORT);
    check_answer("no run: walk", wirdoku_pair_walk(a.at, a.length, a.at, a.length, NULL, 0), WIRDOKU_ACCEPTED, 0);
    check_answer("no assignment", wirdoku_pair_assignment_to_run(a.at, a.length, a.at, a.length, 0, NULL, 0, NULL, 0), WIRDOKU_ASSIGNMENT_LENGTH, 0);
    check_answer("no run buffer at bound 0", wirdoku_pair_assignment_to_run(a.at, a.length, a.at, a.length, 0, start, 4, NULL, 0), WIRDOKU_ACCEPTED, 0);
    check_answer("no assignment buffer", wirdoku_pair_run_to_assignment(a.at, a.length, a.at, a.length, NULL, 0, NULL, 0), WIRDOKU_ASSIGNMENT_TOO_SHORT, 0);
}

void pair_tests(void) {
    struct composed p = worked();
    shapes(p);
    for (size_t bound = 0; bound < 4; bound++)
        lists(p, bound);
    lists(p, WIRDOKU_MAX_STEPS);
    steps(p);
    parts(p);
    runs(p);
    assignments(p);
    refusals(p);
    limits();
    nulls(p);
}
