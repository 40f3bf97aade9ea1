/* Lists: totals, emission, the size program's question; 9, 21 and 22; P1, P2, P5. */
#include "check.h"
#include <stdio.h>
#include <stdlib.h>
#include <string.h>

/* Model A's list at bound 1, as the document writes it (P2). */
static const int32_t LIST_A[] = {
    1, 2, 0, -1, -2, 0, 1, 0,
    3, 4, 5, 0, -3, -4, 0, -3, -5, 0, -4, -5, 0,
    -3, -1, 6, 0, -3, -2, 7, 0, -4, -1, 6, 0, -4, -2, 7, 0,
    -5, 1, 0, -5, 7, 0,
    6, 7, 0, -6, -7, 0, 7, 0,
};
static const size_t WORDS_A = sizeof LIST_A / sizeof *LIST_A;

static void totals(struct text a, struct text b) {
    check_sizes("P1 A at 0", wirdoku_counts(a.at, a.length, 0), WIRDOKU_ACCEPTED, 0, 2, 4, 10);
    check_sizes("P2 A at 1", wirdoku_counts(a.at, a.length, 1), WIRDOKU_ACCEPTED, 0, 7, 16, 51);
    check_sizes("P5 A at 2", wirdoku_counts(a.at, a.length, 2), WIRDOKU_ACCEPTED, 0, 12, 28, 92);
    check_sizes("P6 B at 3", wirdoku_counts(b.at, b.length, 3), WIRDOKU_ACCEPTED, 0, 68, 424, 1516);
    check_sizes("A at 64", wirdoku_counts(a.at, a.length, WIRDOKU_MAX_STEPS), WIRDOKU_ACCEPTED, 0, 322, 772, 2634);
    check_sizes("A at 65", wirdoku_counts(a.at, a.length, WIRDOKU_MAX_STEPS + 1), WIRDOKU_ABOVE_64, 0, 0, 0, 0);
    check_sizes("A at the greatest bound", wirdoku_counts(a.at, a.length, SIZE_MAX), WIRDOKU_ABOVE_64, 0, 0, 0, 0);
}

static void lists(struct text a) {
    for (size_t more = 0; more < 4; more++) {
        int32_t *out = lent_words(WORDS_A + more);
        check_sizes("P2 A at 1: totals", wirdoku_emit(a.at, a.length, 1, out, WORDS_A + more), WIRDOKU_ACCEPTED, 0, 7, 16, WORDS_A);
        check("P2 A at 1: words", memcmp(out, LIST_A, sizeof LIST_A) == 0);
        check("P2 A at 1: nothing beyond", words_kept(out, WORDS_A, WORDS_A + more));
    }
    for (size_t room = 0; room < WORDS_A; room++) {
        int32_t *out = lent_words(room);
        check_sizes("A at 1, too few words", wirdoku_emit(a.at, a.length, 1, out, room), WIRDOKU_WORDS_TOO_SHORT, 0, 0, 0, WORDS_A);
        check("A at 1, too few words: untouched", words_kept(out, 0, room));
    }
    int32_t *out = lent_words(2634);
    check_sizes("A at 65: 21 before 22", wirdoku_emit(a.at, a.length, 65, out, 1), WIRDOKU_ABOVE_64, 0, 0, 0, 0);
    check_sizes("A at the greatest bound", wirdoku_emit(a.at, a.length, SIZE_MAX, out, 2634), WIRDOKU_ABOVE_64, 0, 0, 0, 0);
    check("A above 64: untouched", words_kept(out, 0, 2634));
    check_sizes("A at 64", wirdoku_emit(a.at, a.length, 64, out, 2634), WIRDOKU_ACCEPTED, 0, 322, 772, 2634);
    check("A at 64 begins as A at 1 less its last clause", memcmp(out, LIST_A, (WORDS_A - 2) * sizeof *out) == 0);
    check("A at 64 ends with the target", out[2632] == 322 && out[2633] == 0);
}

/* The two clauses of the edge for the second counter, 30 and 31 from 1. */
static void copied(const char *set, const int32_t *clauses) {
    struct text t = two_counters(set);
    int32_t *out = lent_words(126);
    check_sizes(set, wirdoku_emit(t.at, t.length, 1, out, 126), WIRDOKU_ACCEPTED, 0, 15, 38, 126);
    size_t at = 0;
    for (unsigned ended = 0; at < 118 && ended < 29; at++)
        ended += out[at] == 0;
    check(set, memcmp(out + at, clauses, 8 * sizeof *out) == 0);
}

/* A counter that is set earlier in the list is named in the state after, any other in the state before. */
static void listed_updates(void) {
    const int32_t after[8] = {-9, -12, 14, 0, -9, -13, 15, 0}, before[8] = {-9, -3, 14, 0, -9, -4, 15, 0};
    copied("set=v0:=v0+1,v1:=v0+0", after);
    copied("set=v1:=v0+0,v0:=v0+1", before);
}

/* The totals at bound 1, and in the list the edge's clauses as one piece. */
static void edge_of(const char *name, struct text t, struct wirdoku_sizes sizes, const int32_t *clauses, size_t length) {
    int32_t *out = lent_words(sizes.words);
    check_sizes(name, wirdoku_emit(t.at, t.length, 1, out, sizes.words), WIRDOKU_ACCEPTED, 0, sizes.variables, sizes.clauses, sizes.words);
    size_t at = 0;
    while (at + length < sizes.words && memcmp(out + at, clauses, length * sizeof *out) != 0)
        at++;
    check(name, at + length < sizes.words);
}

/* A copy names the clock copied from in the state before, also beside its reset and beside another copy. */
static void copied_clocks(void) {
    const int32_t saved[] = {-12, 1, 0, -12, 14, 0, -12, -3, 0, -12, 15, 0, -12, -3, 18, 0, -12, -4, 19, 0, -12, -5, 20, 0};
    const int32_t exchanged[] = {-9, 1, 0, -9, 11, 0, -9, -5, 12, 0, -9, -6, 13, 0, -9, -3, 14, 0, -9, -4, 15, 0};
    const struct wirdoku_sizes of_saved = {.variables = 20, .clauses = 62, .words = 215};
    const struct wirdoku_sizes of_exchanged = {.variables = 15, .clauses = 38, .words = 127};
    struct text t = two_clocks("when=x0>=1", "reset=x0,x1:=x0");
    edge_of("a clock saved beside its reset", t, of_saved, saved, sizeof saved / sizeof *saved);
    check_sizes("a clock saved beside its reset, at 2", wirdoku_counts(t.at, t.length, 2), WIRDOKU_ACCEPTED, 0, 32, 110, 390);
    t = two_clocks("when=-", "reset=x0:=x1,x1:=x0");
    edge_of("two clocks exchanged", t, of_exchanged, exchanged, sizeof exchanged / sizeof *exchanged);
}

/* Whether each clause has a literal that the assignment makes true; counts the clauses. */
static int satisfied(const int32_t *words, size_t length, const uint8_t *assignment, int32_t variables, size_t *clauses) {
    int all = 1, some = 0;
    *clauses = 0;
    for (size_t i = 0; i < length; i++) {
        if (words[i] == 0) {
            all = all && some;
            some = 0;
            ++*clauses;
        } else if (abs(words[i]) > variables) {
            return 0;
        } else {
            some = some || assignment[abs(words[i]) - 1] == (words[i] > 0);
        }
    }
    return all;
}

static void satisfying(struct text b) {
    const uint8_t run[3] = {5, 3, 7};
    uint8_t *assignment = lent_bytes(68);
    int32_t *out = lent_words(1516);
    size_t clauses;
    check_answer("B: assignment of 5 3 7", wirdoku_run_to_assignment(b.at, b.length, run, 3, assignment, 68), WIRDOKU_ACCEPTED, 0);
    check_sizes("B at 3", wirdoku_emit(b.at, b.length, 3, out, 1516), WIRDOKU_ACCEPTED, 0, 68, 424, 1516);
    check("B at 3 is satisfied by it", satisfied(out, 1516, assignment, 68, &clauses) && clauses == 424);
    unsigned others = 0;
    for (size_t i = 0; i < 68; i++) {
        assignment[i] ^= 1;
        others += satisfied(out, 1516, assignment, 68, &clauses);
        assignment[i] ^= 1;
    }
    check("B at 3 is not, with any one value changed", others == 0);
}

static void size_program(struct text a) {
    struct text input = joined(text_of("bound=1\n"), a);
    int32_t *out = lent_words(53);
    check_sizes("size: no bound line", wirdoku_size(a.at, a.length, out, 53), WIRDOKU_NO_BOUND_LINE, 0, 0, 0, 0);
    const char *const wrong[] = {"", "bound=1", "bound=01\n", "bound=1000\n", "bound=\n", "bound=1\r\n", "bounds=1\n", "bound=-1\n"};
    for (size_t i = 0; i < sizeof wrong / sizeof *wrong; i++) {
        struct text t = text_of(wrong[i]);
        check_sizes(wrong[i], wirdoku_size(t.at, t.length, out, 53), WIRDOKU_NO_BOUND_LINE, 0, 0, 0, 0);
    }
    struct text above = joined(text_of("bound=999\n"), a);
    check_sizes("size: bound=999", wirdoku_size(above.at, above.length, out, 53), WIRDOKU_ABOVE_64, 0, 0, 0, 0);
    check_sizes("size: 50 words", wirdoku_size(input.at, input.length, out, 50), WIRDOKU_WORDS_TOO_SHORT, 0, 0, 0, 51);
    check("size: refused, untouched", words_kept(out, 0, 53));
    check_sizes("size: A at 1", wirdoku_size(input.at, input.length, out, 53), WIRDOKU_ACCEPTED, 0, 7, 16, 51);
    check("size: A at 1, words", memcmp(out, LIST_A, sizeof LIST_A) == 0 && words_kept(out, 51, 53));
}

/* Lists of exactly the size program's words, and of one more. */
static void sharp_sizes(void) {
    int32_t *out = lent_words(16384);
    struct text most = joined(text_of("bound=57\n"), declaring(1, 1, 1, 1, 7, "-"));
    most = with_line(most, 8, "inv=x0<=0");
    for (size_t edge = 0; edge < 7; edge++)
        most = with_line(most, 14 + 6 * edge, "set=v0:=31");
    struct text more = with_line(joined(text_of("bound=50\n"), declaring(3, 1, 0, 0, 6, "-")), 7, "inv=x0<=1");
    check_sizes("size: 16,385 words", wirdoku_size(more.at, more.length, out, 16384), WIRDOKU_WORDS_TOO_SHORT, 0, 0, 0, 16385);
    check("size: 16,385 words, untouched", words_kept(out, 0, 16384));
    check_sizes("size: 16,384 words", wirdoku_size(most.at, most.length, out, 16384), WIRDOKU_ACCEPTED, 0, 803, 5026, 16384);
    check("size: 16,384 words, the last clause", out[16383] == 0 && !words_kept(out, 16383, 16384));
}

/* The list of B with labels is the list of B. */
static void labels(struct text b) {
    struct text labelled = with_line(with_line(with_line(b, 14, "label=15"), 20, "label=1"), 26, "label=9");
    int32_t *list = lent_words(1516), *other = lent_words(1516);
    check_sizes("B without labels", wirdoku_emit(b.at, b.length, 3, list, 1516), WIRDOKU_ACCEPTED, 0, 68, 424, 1516);
    check_sizes("B with labels", wirdoku_emit(labelled.at, labelled.length, 3, other, 1516), WIRDOKU_ACCEPTED, 0, 68, 424, 1516);
    check("B with labels: its words", memcmp(list, other, 1516 * sizeof *list) == 0);
}

/* The largest list that the limits allow, in the buffer that takes every list. */
static void largest(void) {
    struct text t = declaring(WIRDOKU_MAX_LOCATIONS, WIRDOKU_MAX_CLOCKS, WIRDOKU_MAX_COUNTERS, WIRDOKU_MAX_COUNTER_VALUE,
                              WIRDOKU_MAX_EDGES, "x0<0,x0<0,x0<0,x0<0");
    char guard[64];
    snprintf(guard, sizeof guard, "when=x0>%d,x0<0,x0<0,x0<0", WIRDOKU_MAX_CLOCK_CONSTANT);
    t = with_line(t, 6 + WIRDOKU_MAX_COUNTERS + WIRDOKU_MAX_LOCATIONS + 4, guard);
    int32_t *out = lent_words(WIRDOKU_MAX_WORDS);
    struct wirdoku_sizes found = wirdoku_emit(t.at, t.length, WIRDOKU_MAX_STEPS, out, WIRDOKU_MAX_WORDS);
    check_sizes("the largest list", found, WIRDOKU_ACCEPTED, 0, WIRDOKU_MAX_VARIABLES, 1876043, 6729941);
    check("the largest list ends with the target", out[6729940] == 0 && out[6729939] == WIRDOKU_MAX_VARIABLES - 271);
    check("the largest list, nothing beyond", words_kept(out, 6729941, WIRDOKU_MAX_WORDS));
}

void list_tests(void) {
    struct text a = file_text("models/a.txt"), b = file_text("models/logger_b.txt");
    totals(a, b);
    lists(a);
    listed_updates();
    copied_clocks();
    labels(b);
    satisfying(b);
    size_program(a);
    sharp_sizes();
    largest();
}
