/* lost_entry MODEL K         writes the clause list of a model for K steps to standard output, as a DIMACS file
 * lost_entry MODEL K OUTPUT  reads what a SAT solver printed for that file, and prints the run, state by state
 * Exit status: 0 written, 10 a run, 20 no run, 2 refused by the library, 1 another error. */
#include <stdio.h>
#include <stdlib.h>
#include <wirdoku.h>

static uint8_t text[WIRDOKU_MAX_TEXT + 1], output[1 << 20];
static uint8_t assignment[WIRDOKU_MAX_VARIABLES], run[WIRDOKU_MAX_STEPS];

/* Reads a whole file and gives its length. Its end must be met, so that a file which fills the buffer is too long. */
static size_t content(const char *path, uint8_t *bytes, size_t room) {
    FILE *file = fopen(path, "rb");
    size_t length = file == NULL ? 0 : fread(bytes, 1, room, file);
    if (file == NULL || ferror(file) || !feof(file)) {
        fprintf(stderr, "lost_entry: %s cannot be read or is too long\n", path);
        exit(1);
    }
    fclose(file);
    return length;
}

static int refused(const char *what, unsigned number, size_t place) {
    fprintf(stderr, "lost_entry: %s: refusal %u, place %zu\n", what, number, place);
    return 2;
}

static int write_list(size_t length, size_t bound) {
    struct wirdoku_file list = wirdoku_dimacs(text, length, bound, NULL, 0); /* without a buffer: how many bytes it needs */
    if (list.number != WIRDOKU_FILE_TOO_SHORT)
        return refused("model or bound", list.number, list.line);
    uint8_t *bytes = (uint8_t *)malloc(list.bytes);
    if (bytes == NULL)
        return 1;
    list = wirdoku_dimacs(text, length, bound, bytes, list.bytes);
    fwrite(bytes, 1, list.bytes, stdout);
    free(bytes);
    return 0;
}

static void print_state(struct wirdoku_shape shape, struct wirdoku_state state) {
    printf("location %u", state.location);
    for (unsigned i = 0; i < shape.counters; i++)
        printf(", v%u = %u", i, state.counters[i]);
    for (unsigned i = 0; i < shape.clocks; i++)
        printf(", x%u = %u", i, state.clocks[i]);
    printf("\n");
}

static int print_run(size_t length, size_t steps) {
    struct wirdoku_shape shape = wirdoku_shape(text, length);
    struct wirdoku_state_answer now = wirdoku_initial(text, length);
    print_state(shape, now.state);
    for (size_t i = 0; i < steps; i++) {
        now = wirdoku_step(text, length, now.state, run[i]);
        if (now.number != WIRDOKU_ACCEPTED)
            return refused("step", now.number, i + 1);
        int edge = run[i] > shape.ceiling; /* a step byte up to the ceiling is a delay; above it are the edges */
        printf("%s %zu: ", edge ? "edge" : "delay", edge ? run[i] - shape.ceiling - 1 : run[i]);
        print_state(shape, now.state);
    }
    return 10;
}

static int read_run(size_t length, size_t bound, const char *path) {
    struct wirdoku_sizes list = wirdoku_counts(text, length, bound);
    if (list.number != WIRDOKU_ACCEPTED)
        return refused("model or bound", list.number, list.line);
    size_t printed = content(path, output, sizeof output);
    struct wirdoku_output said = wirdoku_output_to_assignment(output, printed, assignment, list.variables);
    if (said.number != WIRDOKU_ACCEPTED)
        return refused(path, said.number, said.line);
    if (said.outcome == WIRDOKU_UNSATISFIABLE) {
        printf("the solver says that there is no run of %zu steps\n", bound);
        return 20;
    }
    struct wirdoku_answer found = wirdoku_assignment_to_run(text, length, bound, assignment, list.variables, run, sizeof run);
    return found.number == WIRDOKU_ACCEPTED ? print_run(length, bound) : refused("assignment", found.number, found.place);
}

int main(int argc, char **argv) {
    char *end = NULL;
    unsigned long bound = argc < 3 ? 0 : strtoul(argv[2], &end, 10);
    if (argc < 3 || argc > 4 || end == argv[2] || *end != '\0') {
        fprintf(stderr, "usage: lost_entry MODEL K [OUTPUT]\n");
        return 1;
    }
    size_t length = content(argv[1], text, sizeof text);
    int status = argc == 3 ? write_list(length, bound) : read_run(length, bound, argv[3]);
    return fflush(stdout) == 0 && !ferror(stdout) ? status : 1;
}
