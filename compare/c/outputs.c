/* What a solver prints: the worked cases of docs/REFUSALS.md and more, each with its line; numbers of many digits, more variables than one
 * list has, an output of comments alone. The buffer is compared whole after each call. */
#include "check.h"
#include <stdio.h>
#include <string.h>

#define S "s SATISFIABLE\n"
#define U "s UNSATISFIABLE\n"

static const struct {
    size_t variables;
    const char *output;
    uint8_t number;
    size_t line;
} REFUSED[] = {
    {2, "", WIRDOKU_OUTPUT_INCOMPLETE, 1},
    {2, "c x\n", WIRDOKU_OUTPUT_INCOMPLETE, 2},
    {2, S, WIRDOKU_OUTPUT_INCOMPLETE, 2},
    {2, S "v 1 2\n", WIRDOKU_OUTPUT_INCOMPLETE, 3},
    {2, S "v 1 2\nc x\nc y\n", WIRDOKU_OUTPUT_INCOMPLETE, 5},
    {2, S "v 1 0\n", WIRDOKU_OUTPUT_INCOMPLETE, 2},
    {2, S "v 2 0\n", WIRDOKU_OUTPUT_INCOMPLETE, 2},
    {2, S "v 1 0\nx\n", WIRDOKU_OUTPUT_INCOMPLETE, 2},
    {2, S "v 1 0\nv 2 0\n", WIRDOKU_OUTPUT_INCOMPLETE, 2},
    {2, S "c \nv 1\nv 0\n", WIRDOKU_OUTPUT_INCOMPLETE, 4},
    {2, S "v 1 1\nx\n", WIRDOKU_ABOVE_OR_NAMED_BEFORE, 2},
    {2, S "v 1 -1 2 0\n", WIRDOKU_ABOVE_OR_NAMED_BEFORE, 2},
    {2, S "v 1 2\nv 1 0\n", WIRDOKU_ABOVE_OR_NAMED_BEFORE, 3},
    {2, S "v 3 0\n", WIRDOKU_ABOVE_OR_NAMED_BEFORE, 2},
    {2, S "v -3 0\n", WIRDOKU_ABOVE_OR_NAMED_BEFORE, 2},
    {2, S "v 257 2 0\n", WIRDOKU_ABOVE_OR_NAMED_BEFORE, 2},
    {2, S "v 65537 2 0\n", WIRDOKU_ABOVE_OR_NAMED_BEFORE, 2},
    {2, S "v 4294967297 2 0\n", WIRDOKU_ABOVE_OR_NAMED_BEFORE, 2},
    {2, S "v -4294967298 1 0\n", WIRDOKU_ABOVE_OR_NAMED_BEFORE, 2},
    {2, S "v 18446744073709551617 2 0\n", WIRDOKU_ABOVE_OR_NAMED_BEFORE, 2},
    {2, S "v 1 2 0", WIRDOKU_OUT_OF_FORM_OR_PLACE, 2},
    {2, S "v 1 2 0\nc x", WIRDOKU_OUT_OF_FORM_OR_PLACE, 3},
    {2, "s UNSATISFIABLE", WIRDOKU_OUT_OF_FORM_OR_PLACE, 1},
    {2, S "v 1 2 0\nv 0\n", WIRDOKU_OUT_OF_FORM_OR_PLACE, 3},
    {2, S "v 1 1 x\n", WIRDOKU_OUT_OF_FORM_OR_PLACE, 2},
    {2, S "v 3 x\n", WIRDOKU_OUT_OF_FORM_OR_PLACE, 2},
    {2, "v 1 2 0\n" S, WIRDOKU_OUT_OF_FORM_OR_PLACE, 1},
    {2, S S "v 1 2 0\n", WIRDOKU_OUT_OF_FORM_OR_PLACE, 2},
    {2, U "v 1 0\n", WIRDOKU_OUT_OF_FORM_OR_PLACE, 2},
    {2, U U, WIRDOKU_OUT_OF_FORM_OR_PLACE, 2},
    {2, S "v -0\n", WIRDOKU_OUT_OF_FORM_OR_PLACE, 2},
    {2, S "v 01 2 0\n", WIRDOKU_OUT_OF_FORM_OR_PLACE, 2},
    {2, S "v +1 2 0\n", WIRDOKU_OUT_OF_FORM_OR_PLACE, 2},
    {2, S "v 0 1 2\n", WIRDOKU_OUT_OF_FORM_OR_PLACE, 2},
    {2, S "v 1  2 0\n", WIRDOKU_OUT_OF_FORM_OR_PLACE, 2},
    {2, S "v 1 2 0 \n", WIRDOKU_OUT_OF_FORM_OR_PLACE, 2},
    {2, S "v\n", WIRDOKU_OUT_OF_FORM_OR_PLACE, 2},
    {2, S "v \n", WIRDOKU_OUT_OF_FORM_OR_PLACE, 2},
    {2, S "v 1 2 0 0\n", WIRDOKU_OUT_OF_FORM_OR_PLACE, 2},
    {2, "s UNKNOWN\n", WIRDOKU_OUT_OF_FORM_OR_PLACE, 1},
    {2, S "\nv 1 2 0\n", WIRDOKU_OUT_OF_FORM_OR_PLACE, 2},
    {2, S "v 1 2 0\r\n", WIRDOKU_OUT_OF_FORM_OR_PLACE, 2},
    {2, "c\n" S "v 1 2 0\n", WIRDOKU_OUT_OF_FORM_OR_PLACE, 1},
    {0, "", WIRDOKU_OUTPUT_INCOMPLETE, 1},
    {0, S, WIRDOKU_OUTPUT_INCOMPLETE, 2},
    {0, S "v 1 0\n", WIRDOKU_ABOVE_OR_NAMED_BEFORE, 2},
};

static void refused(const char *name, struct text t, size_t variables, uint8_t number, size_t line) {
    uint8_t *assignment = lent_bytes(variables);
    check_output(name, wirdoku_output_to_assignment(t.at, t.length, assignment, variables), number, line, 0);
    check(name, bytes_kept(assignment, 0, variables));
}

static void unsatisfiable(const char *name, struct text t, size_t variables) {
    uint8_t *assignment = lent_bytes(variables);
    check_output(name, wirdoku_output_to_assignment(t.at, t.length, assignment, variables), WIRDOKU_ACCEPTED, 0, WIRDOKU_UNSATISFIABLE);
    check(name, bytes_kept(assignment, 0, variables));
}

/* Variable i, from 1, is to be true if it leaves 1 when it is divided by `step`. */
static void satisfiable(const char *name, struct text t, size_t variables, size_t step) {
    uint8_t *assignment = lent_bytes(variables);
    check_output(name, wirdoku_output_to_assignment(t.at, t.length, assignment, variables), WIRDOKU_ACCEPTED, 0, WIRDOKU_SATISFIABLE);
    int holds = 1;
    for (size_t i = 1; i <= variables; i++)
        holds = holds && assignment[i - 1] == (i % step == 1);
    check(name, holds);
}

static void worked(void) {
    /* true are 1, 4 and 7 */
    satisfiable("in one line", text_of(S "v 1 -2 -3 4 -5 -6 7 0\n"), 7, 3);
    satisfiable("split, with comments", text_of("c x\n" S "c \nv 7 -6\nv -5 4 -3\nc y\nv -2 1\nv 0\nc z\n"), 7, 3);
    unsatisfiable("unsatisfiable", text_of(U), 7);
    unsatisfiable("unsatisfiable, with comments", text_of("c x\n" U "c y\n"), 7);
    satisfiable("no variable", text_of(S "v 0\n"), 0, 2);
    const uint8_t document[7] = {1, 0, 0, 0, 1, 0, 1};
    uint8_t *assignment = lent_bytes(7);
    struct text t = text_of(S "v 1 -2 -3 -4 5 -6 7 0\n");
    check_output("the document's", wirdoku_output_to_assignment(t.at, t.length, assignment, 7), WIRDOKU_ACCEPTED, 0, WIRDOKU_SATISFIABLE);
    check("the document's", memcmp(assignment, document, 7) == 0);
    for (size_t i = 0; i < sizeof REFUSED / sizeof *REFUSED; i++)
        refused(REFUSED[i].output, text_of(REFUSED[i].output), REFUSED[i].variables, REFUSED[i].number, REFUSED[i].line);
}

/* Empty slices may be NULL and 0. */
static void nulls(void) {
    struct text none = text_of(S "v 0\n");
    check_output("no output", wirdoku_output_to_assignment(NULL, 0, NULL, 0), WIRDOKU_OUTPUT_INCOMPLETE, 1, 0);
    check_output("no buffer", wirdoku_output_to_assignment(none.at, none.length, NULL, 0), WIRDOKU_ACCEPTED, 0, WIRDOKU_SATISFIABLE);
    uint8_t *assignment = lent_bytes(3);
    check_output("no output, a buffer", wirdoku_output_to_assignment(NULL, 0, assignment, 3), WIRDOKU_OUTPUT_INCOMPLETE, 1, 0);
    check("no output, a buffer: untouched", bytes_kept(assignment, 0, 3));
}

/* Outputs of `variables` variables, ten to a line, variable i true if it leaves 1 when it is divided by 7. The literal at an index, from 0,
 * can be replaced by another variable; 0 replaces none. */
static struct text values(size_t variables, size_t index, size_t other) {
    size_t n = 0, room = 16 + 10 * variables;
    char *made = block(room);
    n += snprintf(made + n, room - n, S "v");
    for (size_t i = 1; i <= variables; i++) {
        size_t named = other != 0 && index == i - 1 ? other : i;
        n += snprintf(made + n, room - n, "%s %s%zu", i > 1 && i % 10 == 1 ? "\nv" : "", named % 7 == 1 ? "" : "-", named);
    }
    n += snprintf(made + n, room - n, " 0\n");
    struct text t = {(const uint8_t *)made, n};
    return joined(t, text_of(""));
}

/* More variables than any list has. The literal at an index stands in line 2 + index / 10. */
static void many(size_t variables) {
    satisfiable("many variables", values(variables, 0, 0), variables, 7);
    refused("many variables, one too few lent", values(variables, 0, 0), variables - 1, WIRDOKU_ABOVE_OR_NAMED_BEFORE, 2 + (variables - 1) / 10);
    refused("many variables, one too many lent", values(variables, 0, 0), variables + 1, WIRDOKU_OUTPUT_INCOMPLETE, 2 + (variables - 1) / 10);
    refused("the first one again at the end", values(variables, variables - 1, 1), variables, WIRDOKU_ABOVE_OR_NAMED_BEFORE, 2 + (variables - 1) / 10);
    refused("the last one at the beginning", values(variables, 0, variables), variables, WIRDOKU_ABOVE_OR_NAMED_BEFORE, 2 + (variables - 1) / 10);
    refused("the one before again", values(variables, variables - 1, variables - 1), variables, WIRDOKU_ABOVE_OR_NAMED_BEFORE, 2 + (variables - 1) / 10);
    struct text cut = values(variables, 0, 0);
    cut.length -= 3;
    refused("cut before the closing 0", joined(cut, text_of("\n")), variables, WIRDOKU_OUTPUT_INCOMPLETE, 3 + (variables - 1) / 10);
    char end[64];
    snprintf(end, sizeof end, "\nv %zu\nv 5\nv 0\n", variables - 5);
    refused("two again, the greater one first", joined(cut, text_of(end)), variables, WIRDOKU_ABOVE_OR_NAMED_BEFORE, 3 + (variables - 1) / 10);
    snprintf(end, sizeof end, "\nv 5\nv %zu\nv 0\n", variables - 5);
    refused("two again, the lesser one first", joined(cut, text_of(end)), variables, WIRDOKU_ABOVE_OR_NAMED_BEFORE, 3 + (variables - 1) / 10);
}

static void comments(void) {
    struct text t = repeated("c 0123456789 s SATISFIABLE\n", 20000);
    refused("comments alone", t, 2, WIRDOKU_OUTPUT_INCOMPLETE, 20001);
    satisfiable("comments before all", joined(t, text_of(S "v 1 -2 0\n")), 2, 7);
    unsatisfiable("comments after all", joined(text_of(U), t), 2);
    refused("the last comment without LF", joined(t, text_of("c ")), 2, WIRDOKU_OUT_OF_FORM_OR_PLACE, 20001);
}

static void digits(void) {
    struct text before = text_of(S "v 1 2"), many = repeated("1", 5000);
    refused("5000 digits", joined(before, joined(many, text_of(" 0\n"))), 2, WIRDOKU_ABOVE_OR_NAMED_BEFORE, 2);
    refused("5000 zeros", joined(text_of(S "v 1"), joined(repeated("0", 5000), text_of("\n"))), 2, WIRDOKU_ABOVE_OR_NAMED_BEFORE, 2);
    refused("5000 digits, then no form", joined(before, joined(many, text_of(" x\n"))), 2, WIRDOKU_OUT_OF_FORM_OR_PLACE, 2);
}

void output_tests(void) {
    worked();
    nulls();
    many(40000);
    comments();
    digits();
}
