/* Counting, comparing, and the memory that the calls are given. */
#include "check.h"
#include <stdio.h>
#include <stdlib.h>
#include <string.h>

static unsigned long passed, failed;

void check(const char *name, int holds) {
    if (holds) {
        passed++;
    } else {
        failed++;
        printf("FAILED: %s\n", name);
    }
}

int none_failed(void) {
    return failed == 0;
}

int finish(void) {
    printf("%lu passed, %lu failed\n", passed, failed);
    return failed != 0;
}

void check_answer(const char *name, struct wirdoku_answer found, uint8_t number, size_t place) {
    int holds = found.number == number && found.place == place;
    check(name, holds);
    if (!holds)
        printf("    expected %d %zu, found %d %zu\n", number, place, found.number, found.place);
}

void check_sizes(const char *name, struct wirdoku_sizes found, uint8_t number, size_t line, size_t variables, size_t clauses, size_t words) {
    int holds = found.number == number && found.line == line && found.variables == variables && found.clauses == clauses && found.words == words;
    check(name, holds);
    if (!holds)
        printf("    expected %d %zu %zu %zu %zu, found %d %zu %zu %zu %zu\n", number, line, variables, clauses, words,
               found.number, found.line, found.variables, found.clauses, found.words);
}

void check_file(const char *name, struct wirdoku_file found, uint8_t number, size_t line, size_t bytes) {
    int holds = found.number == number && found.line == line && found.bytes == bytes;
    check(name, holds);
    if (!holds)
        printf("    expected %d %zu %zu, found %d %zu %zu\n", number, line, bytes, found.number, found.line, found.bytes);
}

void check_output(const char *name, struct wirdoku_output found, uint8_t number, size_t line, uint8_t outcome) {
    int holds = found.number == number && found.line == line && found.outcome == outcome;
    check(name, holds);
    if (!holds)
        printf("    expected %d %zu %d, found %d %zu %d\n", number, line, outcome, found.number, found.line, found.outcome);
}

void check_refutation(const char *name, struct wirdoku_refutation found, uint8_t number, size_t line, size_t words, uint8_t outcome) {
    int holds = found.number == number && found.line == line && found.words == words && found.outcome == outcome;
    check(name, holds);
    if (!holds)
        printf("    expected %d %zu %zu %d, found %d %zu %zu %d\n", number, line, words, outcome, found.number, found.line, found.words, found.outcome);
}

void check_pair(const char *name, struct wirdoku_pair found, uint8_t number, uint8_t text, size_t line) {
    int holds = found.number == number && found.text == text && found.line == line;
    check(name, holds);
    if (!holds)
        printf("    expected %d %d %zu, found %d %d %zu\n", number, text, line, found.number, found.text, found.line);
}

void check_parts(const char *name, struct wirdoku_part_steps found, uint8_t number, size_t line, uint8_t first, uint8_t second) {
    int holds = found.number == number && found.line == line && found.first == first && found.second == second;
    check(name, holds);
    if (!holds)
        printf("    expected %d %zu %d %d, found %d %zu %d %d\n", number, line, first, second, found.number, found.line, found.first, found.second);
}

static void print_shape(const char *word, struct wirdoku_shape s) {
    printf("    %s %d %zu %d %d %d %d %d %d %zu %zu %zu\n", word, s.number, s.line, s.locations, s.initial, s.target, s.clocks, s.counters,
           s.edges, s.ceiling, s.state, s.choices);
}

void check_shape(const char *name, struct wirdoku_shape found, struct wirdoku_shape expected) {
    int holds = found.number == expected.number && found.line == expected.line && found.locations == expected.locations &&
                found.initial == expected.initial && found.target == expected.target && found.clocks == expected.clocks &&
                found.counters == expected.counters && found.edges == expected.edges && found.ceiling == expected.ceiling &&
                found.state == expected.state && found.choices == expected.choices;
    check(name, holds);
    if (!holds) {
        print_shape("expected", expected);
        print_shape("found", found);
    }
}

static void print_state(const char *word, uint8_t number, size_t line, struct wirdoku_state s) {
    printf("    %s %d %zu, %d, %d %d %d %d, %d %d %d %d\n", word, number, line, s.location, s.counters[0], s.counters[1], s.counters[2],
           s.counters[3], s.clocks[0], s.clocks[1], s.clocks[2], s.clocks[3]);
}

void check_state(const char *name, struct wirdoku_state_answer found, uint8_t number, size_t line, struct wirdoku_state state) {
    int holds = found.number == number && found.line == line && found.state.location == state.location &&
                memcmp(found.state.counters, state.counters, sizeof state.counters) == 0 &&
                memcmp(found.state.clocks, state.clocks, sizeof state.clocks) == 0;
    check(name, holds);
    if (!holds) {
        print_state("expected", number, line, state);
        print_state("found", found.number, found.line, found.state);
    }
}

void *block(size_t size) {
    void *memory = malloc(size == 0 ? 1 : size);
    if (memory == NULL) {
        puts("no memory");
        exit(2);
    }
    return memory;
}

static struct text copied(const void *bytes, size_t length) {
    uint8_t *copy = block(length);
    memcpy(copy, bytes, length);
    struct text made = {copy, length};
    return made;
}

struct text text_of(const char *string) {
    return copied(string, strlen(string));
}

struct text file_text(const char *path) {
    static uint8_t bytes[65536];
    FILE *file = fopen(path, "rb");
    if (file == NULL) {
        perror(path);
        exit(2);
    }
    size_t length = fread(bytes, 1, sizeof bytes, file);
    fclose(file);
    return copied(bytes, length);
}

struct text joined(struct text first, struct text second) {
    uint8_t *both = block(first.length + second.length);
    memcpy(both, first.at, first.length);
    memcpy(both + first.length, second.at, second.length);
    struct text made = {both, first.length + second.length};
    return made;
}

/* The index after so many LF. */
static size_t after_lines(struct text base, size_t lines) {
    size_t i = 0;
    while (lines > 0 && i < base.length)
        if (base.at[i++] == '\n')
            lines--;
    return i;
}

struct text with_line(struct text base, size_t line, const char *string) {
    size_t end = after_lines(base, line);
    struct text before = {base.at, after_lines(base, line - 1)};
    struct text after = {base.at + end, base.length - end};
    return joined(joined(before, text_of(string)), joined(text_of("\n"), after));
}

struct text two_counters(const char *set) {
    return with_line(with_line(file_text("models/a.txt"), 5, "vars=2\nvar=1,0\nvar=1,0"), 15, set);
}

struct text two_clocks(const char *when, const char *reset) {
    return with_line(with_line(with_line(file_text("models/a.txt"), 4, "clocks=2"), 12, when), 14, reset);
}

struct text repeated(const char *string, size_t count) {
    size_t length = strlen(string);
    uint8_t *bytes = block(count * length);
    for (size_t i = 0; i < count; i++)
        memcpy(bytes + i * length, string, length);
    struct text made = {bytes, count * length};
    return made;
}

struct text line_feeds(size_t count) {
    return repeated("\n", count);
}

struct text declaring(unsigned locations, unsigned clocks, unsigned counters, unsigned greatest, unsigned edges, const char *atoms) {
    static char made[65536];
    size_t n = 0;
    n += snprintf(made + n, sizeof made - n, "locations=%u\ninit=0\ntarget=0\nclocks=%u\nvars=%u\n", locations, clocks, counters);
    for (unsigned i = 0; i < counters; i++)
        n += snprintf(made + n, sizeof made - n, "var=%u,0\n", greatest);
    for (unsigned i = 0; i < locations; i++)
        n += snprintf(made + n, sizeof made - n, "inv=%s\n", atoms);
    n += snprintf(made + n, sizeof made - n, "edges=%u\n", edges);
    for (unsigned i = 0; i < edges; i++)
        n += snprintf(made + n, sizeof made - n, "from=0\nto=0\nlabel=%u\nwhen=%s\nset=-\nreset=-\n", i % (WIRDOKU_MAX_LABEL + 1), atoms);
    return copied(made, n);
}

static int32_t word_pattern(size_t i) {
    return INT32_MIN + (int32_t)(i % 1000);
}

int32_t *lent_words(size_t length) {
    int32_t *words = block(length * sizeof *words);
    for (size_t i = 0; i < length; i++)
        words[i] = word_pattern(i);
    return words;
}

int words_kept(const int32_t *words, size_t from, size_t length) {
    for (size_t i = from; i < length; i++)
        if (words[i] != word_pattern(i))
            return 0;
    return 1;
}

static uint8_t byte_pattern(size_t i) {
    return (uint8_t)(150 + i % 100);
}

uint8_t *lent_bytes(size_t length) {
    uint8_t *bytes = block(length);
    for (size_t i = 0; i < length; i++)
        bytes[i] = byte_pattern(i);
    return bytes;
}

int bytes_kept(const uint8_t *bytes, size_t from, size_t length) {
    for (size_t i = from; i < length; i++)
        if (bytes[i] != byte_pattern(i))
            return 0;
    return 1;
}

struct wirdoku_state state_of(uint8_t location, uint8_t v0, uint8_t x0) {
    return slots_of(location, (uint32_t)v0 << 24, (uint32_t)x0 << 24);
}

struct wirdoku_state slots_of(uint8_t location, uint32_t counters, uint32_t clocks) {
    struct wirdoku_state state;
    state.location = location;
    for (unsigned i = 0; i < 4; i++) {
        state.counters[i] = counters >> (24 - 8 * i) & 255;
        state.clocks[i] = clocks >> (24 - 8 * i) & 255;
    }
    return state;
}

struct wirdoku_shape refused_shape(uint8_t number, size_t line) {
    struct wirdoku_shape shape = {.number = number, .line = line};
    return shape;
}
