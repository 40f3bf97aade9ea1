/* Sizes of the header's structs, and size and place of each field, held to layout.txt and refutation_layout.txt; so are the Rust declarations
 * (tool/tests/library.rs). That the library's machine code has them there is seen by answers with other numbers in every field (texts.c, lists.c,
 * files.c, runs.c, outputs.c, refutations.c, pairs.c). */
#include "check.h"
#include <stdio.h>
#include <string.h>

#define STRUCT(s) {#s, 0, sizeof(struct s)}
#define FIELD(s, f) {#s "." #f, offsetof(struct s, f), sizeof(((struct s *)0)->f)}

struct place {
    const char *name;
    size_t offset, size;
};

static const struct place LAYOUT[] = {
    STRUCT(wirdoku_answer), FIELD(wirdoku_answer, number), FIELD(wirdoku_answer, place),
    STRUCT(wirdoku_sizes), FIELD(wirdoku_sizes, number), FIELD(wirdoku_sizes, line), FIELD(wirdoku_sizes, variables),
    FIELD(wirdoku_sizes, clauses), FIELD(wirdoku_sizes, words),
    STRUCT(wirdoku_file), FIELD(wirdoku_file, number), FIELD(wirdoku_file, line), FIELD(wirdoku_file, bytes),
    STRUCT(wirdoku_shape), FIELD(wirdoku_shape, number), FIELD(wirdoku_shape, line), FIELD(wirdoku_shape, locations),
    FIELD(wirdoku_shape, initial), FIELD(wirdoku_shape, target), FIELD(wirdoku_shape, clocks), FIELD(wirdoku_shape, counters),
    FIELD(wirdoku_shape, edges), FIELD(wirdoku_shape, ceiling), FIELD(wirdoku_shape, state), FIELD(wirdoku_shape, choices),
    STRUCT(wirdoku_state), FIELD(wirdoku_state, location), FIELD(wirdoku_state, counters), FIELD(wirdoku_state, clocks),
    STRUCT(wirdoku_state_answer), FIELD(wirdoku_state_answer, number), FIELD(wirdoku_state_answer, line),
    FIELD(wirdoku_state_answer, state),
    STRUCT(wirdoku_output), FIELD(wirdoku_output, number), FIELD(wirdoku_output, line), FIELD(wirdoku_output, outcome),
    STRUCT(wirdoku_pair), FIELD(wirdoku_pair, number), FIELD(wirdoku_pair, text), FIELD(wirdoku_pair, line),
    STRUCT(wirdoku_part_steps), FIELD(wirdoku_part_steps, number), FIELD(wirdoku_part_steps, line), FIELD(wirdoku_part_steps, first),
    FIELD(wirdoku_part_steps, second),
};

static const struct place REFUTATION_LAYOUT[] = {
    STRUCT(wirdoku_refutation), FIELD(wirdoku_refutation, number), FIELD(wirdoku_refutation, line), FIELD(wirdoku_refutation, words),
    FIELD(wirdoku_refutation, outcome),
};

static void held_to(const char *path, const struct place *layout, size_t places) {
    FILE *file = fopen(path, "r");
    char expected[128], found[128];
    for (size_t i = 0; i < places; i++) {
        snprintf(found, sizeof found, "%s %zu %zu\n", layout[i].name, layout[i].offset, layout[i].size);
        int holds = file != NULL && fgets(expected, sizeof expected, file) != NULL && strcmp(expected, found) == 0;
        check(found, holds);
    }
    snprintf(found, sizeof found, "%s has no more lines", path);
    check(found, file != NULL && fgets(expected, sizeof expected, file) == NULL);
    if (file != NULL)
        fclose(file);
}

void layout_tests(void) {
    held_to("compare/c/layout.txt", LAYOUT, sizeof LAYOUT / sizeof *LAYOUT);
    held_to("compare/c/refutation_layout.txt", REFUTATION_LAYOUT, sizeof REFUTATION_LAYOUT / sizeof *REFUTATION_LAYOUT);
}
