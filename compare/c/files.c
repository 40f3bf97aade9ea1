/* The DIMACS file: its worked cases, 21 and 32, buffers on both sides of its length, its numbers, the longest one. */
#include "check.h"
#include <stdio.h>
#include <stdlib.h>
#include <string.h>

/* Model A's file at bound 1, as the document writes its list (P2). */
static const char FILE_A[] =
    "p cnf 7 16\n1 2 0\n-1 -2 0\n1 0\n"
    "3 4 5 0\n-3 -4 0\n-3 -5 0\n-4 -5 0\n"
    "-3 -1 6 0\n-3 -2 7 0\n-4 -1 6 0\n-4 -2 7 0\n"
    "-5 1 0\n-5 7 0\n"
    "6 7 0\n-6 -7 0\n7 0\n";
static const size_t BYTES_A = sizeof FILE_A - 1;

static void rooms(struct text a) {
    check("A at 1 has 133 bytes", BYTES_A == 133);
    for (size_t more = 0; more < 4; more++) {
        uint8_t *out = lent_bytes(BYTES_A + more);
        check_file("A at 1", wirdoku_dimacs(a.at, a.length, 1, out, BYTES_A + more), WIRDOKU_ACCEPTED, 0, BYTES_A);
        check("A at 1: the file", memcmp(out, FILE_A, BYTES_A) == 0);
        check("A at 1: nothing beyond", bytes_kept(out, BYTES_A, BYTES_A + more));
    }
    for (size_t room = 0; room < BYTES_A; room++) {
        uint8_t *out = lent_bytes(room);
        check_file("A at 1, too few bytes", wirdoku_dimacs(a.at, a.length, 1, out, room), WIRDOKU_FILE_TOO_SHORT, 0, BYTES_A);
        check("A at 1, too few bytes: untouched", bytes_kept(out, 0, room));
    }
}

/* Bounds above 64 are tested before the buffer. */
static void above(struct text a) {
    uint8_t *out = lent_bytes(200);
    check_file("A at 65: 21 before 32", wirdoku_dimacs(a.at, a.length, WIRDOKU_MAX_STEPS + 1, out, 1), WIRDOKU_ABOVE_64, 0, 0);
    check_file("A at 65", wirdoku_dimacs(a.at, a.length, WIRDOKU_MAX_STEPS + 1, out, 200), WIRDOKU_ABOVE_64, 0, 0);
    check_file("A at the greatest bound", wirdoku_dimacs(a.at, a.length, SIZE_MAX, out, 200), WIRDOKU_ABOVE_64, 0, 0);
    check("A above 64: untouched", bytes_kept(out, 0, 200));
}

/* Whether the file has the totals in its first line, and after it numbers that are the list's words, each line one clause. */
static int says(const char *file, const int32_t *words, struct wirdoku_sizes sizes) {
    char first[64];
    size_t length = (size_t)snprintf(first, sizeof first, "p cnf %zu %zu\n", sizes.variables, sizes.clauses);
    if (memcmp(file, first, length) != 0)
        return 0;
    const char *at = file + length;
    for (size_t i = 0; i < sizes.words; i++) {
        char *end;
        if (strtol(at, &end, 10) != words[i] || end == at || *end != (words[i] == 0 ? '\n' : ' '))
            return 0;
        at = end + 1;
    }
    return *at == '\0';
}

/* The file's length, and one byte less and one more; its numbers are the words of wirdoku_emit. */
static void file_of(const char *name, struct text t, size_t bound, size_t bytes) {
    struct wirdoku_sizes sizes = wirdoku_counts(t.at, t.length, bound);
    int32_t *words = lent_words(sizes.words);
    check_sizes(name, wirdoku_emit(t.at, t.length, bound, words, sizes.words), WIRDOKU_ACCEPTED, 0, sizes.variables, sizes.clauses, sizes.words);
    uint8_t *out = lent_bytes(bytes + 1);
    check_file(name, wirdoku_dimacs(t.at, t.length, bound, out, bytes - 1), WIRDOKU_FILE_TOO_SHORT, 0, bytes);
    check(name, bytes_kept(out, 0, bytes + 1));
    check_file(name, wirdoku_dimacs(t.at, t.length, bound, out, bytes + 1), WIRDOKU_ACCEPTED, 0, bytes);
    check(name, bytes_kept(out, bytes, bytes + 1));
    out[bytes] = '\0';
    check(name, says((const char *)out, words, sizes));
    uint8_t *exact = lent_bytes(bytes);
    check_file(name, wirdoku_dimacs(t.at, t.length, bound, exact, bytes), WIRDOKU_ACCEPTED, 0, bytes);
    check(name, memcmp(exact, out, bytes) == 0);
}

static uint64_t fnv(const uint8_t *bytes, size_t length) {
    uint64_t digest = UINT64_C(14695981039346656037);
    for (size_t i = 0; i < length; i++)
        digest = (digest ^ bytes[i]) * UINT64_C(1099511628211);
    return digest;
}

/* The model with the longest file: as much as may be declared, the last clock, counter and location throughout, the last counter set
 * first, so that the others read it in the later state, and the last clock copied to all. */
static struct text longest_text(void) {
    struct text t = declaring(WIRDOKU_MAX_LOCATIONS, WIRDOKU_MAX_CLOCKS, WIRDOKU_MAX_COUNTERS, WIRDOKU_MAX_COUNTER_VALUE,
                              WIRDOKU_MAX_EDGES, "x3<0,x3<0,x3<0,x3<0");
    t = with_line(with_line(t, 2, "init=15"), 3, "target=15");
    for (size_t i = 0; i < WIRDOKU_MAX_COUNTERS; i++)
        t = with_line(t, 6 + i, "var=31,31");
    const size_t edges = 6 + WIRDOKU_MAX_COUNTERS + WIRDOKU_MAX_LOCATIONS;
    t = with_line(t, edges + 4, "when=x3>30,x3<0,x3<0,x3<0");
    for (size_t i = 0; i < WIRDOKU_MAX_EDGES; i++) {
        t = with_line(with_line(t, edges + 6 * i + 1, "from=15"), edges + 6 * i + 2, "to=15");
        t = with_line(t, edges + 6 * i + 5, "set=v3:=v3+0,v0:=v3+0,v1:=v3+0,v2:=v3+0");
        t = with_line(t, edges + 6 * i + 6, "reset=x0:=x3,x1:=x3,x2:=x3,x3:=x3");
    }
    return t;
}

static void longest(void) {
    struct text t = longest_text();
    uint8_t *out = lent_bytes(WIRDOKU_MAX_FILE);
    struct wirdoku_file found = wirdoku_dimacs(t.at, t.length, WIRDOKU_MAX_STEPS, out, WIRDOKU_MAX_FILE - 1);
    check_file("the longest file, a byte too few", found, WIRDOKU_FILE_TOO_SHORT, 0, WIRDOKU_MAX_FILE);
    check("the longest file, a byte too few: untouched", bytes_kept(out, 0, WIRDOKU_MAX_FILE));
    found = wirdoku_dimacs(t.at, t.length, WIRDOKU_MAX_STEPS, out, WIRDOKU_MAX_FILE);
    check_file("the longest file", found, WIRDOKU_ACCEPTED, 0, WIRDOKU_MAX_FILE);
    check("the longest file: its bytes", fnv(out, WIRDOKU_MAX_FILE) == UINT64_C(0x85d46b122a02944e));
}

void file_tests(void) {
    struct text a = file_text("models/a.txt"), b = file_text("models/logger_b.txt");
    rooms(a);
    above(a);
    file_of("file of A at 0", a, 0, 32);
    file_of("file of A at 1", a, 1, 133);
    file_of("file of A at 2", a, 2, 249);
    file_of("file of B at 0", b, 0, 211);
    file_of("file of B at 1", b, 1, 1708);
    file_of("file of B at 2", b, 2, 3266);
    file_of("file of B at 3", b, 3, 4824);
    file_of("file of B at 64", b, WIRDOKU_MAX_STEPS, 124483);
    longest();
}
