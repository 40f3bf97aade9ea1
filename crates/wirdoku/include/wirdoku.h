/* The calls of the proved library, for C and for every language that calls C. Link with libwirdoku.a (`rt staticlib wirdoku`),
 * which is built for x86-64 Linux.
 *
 * A slice is a pointer and the number of its elements; an empty one may be NULL and 0. What a caller must see to, and all that it must:
 * - each pointer is aligned for its elements and leads to as many as the number says, which may be read, or written where it is lent;
 * - a buffer that a call writes to (a pointer without `const`) overlaps nothing else that the call is given;
 * - nothing else writes to any of them while the call lasts.
 * Every call but one takes the bytes of a model text, or of two, and reads them; one reads what a solver prints. Whatever bytes and numbers
 * a call is given, it returns. It keeps nothing from one call to the next, so that several threads may call, and takes no memory but its stack.
 *
 * What each call answers, and what every lent buffer holds afterwards, is proved: crates/wirdoku/src/lib.rt states it, in the words of
 * docs/NOTATION.md. Not proved but tested: that this header declares what the archive has (scripts/c-calls), that a stack of 128 KiB
 * suffices for every call, the thread's own needs included and with a quarter of it to spare (scripts/compare-calls), and that no file
 * has more than WIRDOKU_MAX_FILE bytes (reference/tests/largest.rs). docs/TRUST.md says what else is assumed, docs/C.md how to compile and
 * what stack was measured.
 *
 * `number` is 0, or the number of a refusal; `line` is the line of the text, from 1, for refusals 2 to 8, and of a solver's output for 33
 * to 35, else 0.
 * After a refusal every other number is 0 unless said otherwise, and a lent buffer holds what it held.
 */
#ifndef WIRDOKU_H
#define WIRDOKU_H
#include <stddef.h>
#include <stdint.h>
#ifdef __cplusplus
extern "C" {
#endif

/* Rises by 1 with every change of what stands in this file or of what a call answers; CHANGELOG.md says what changed. */
#define WIRDOKU_VERSION 9

/* Refusals, as docs/REFUSALS.md has them. No call of this header answers 20: a text that is read gives a well-formed record. */
enum wirdoku_refusal {
    WIRDOKU_ACCEPTED = 0,
    WIRDOKU_TEXT_TOO_LONG = 1,           /* more than 8,192 bytes (the bound line of a program's input is not counted) */
    WIRDOKU_NO_SUCH_LINE = 2,            /* no LF, or not the due key and `=`; also when the text ends before this line */
    WIRDOKU_NOT_OF_FORM = 3,             /* the value is not of its form (docs/FORMAT.md); also `!=` on a clock, a counter in `inv`, an offset `-0`, a CR */
    WIRDOKU_OUT_OF_RANGE = 4,            /* a number is outside its range; also an initial value above its greatest */
    WIRDOKU_NOT_DECLARED = 5,            /* a location, clock or counter is not declared, however great its number; also a clock copied from */
    WIRDOKU_SET_TWICE_OR_NOT_RISING = 6, /* a counter is set twice in one edge, or the clocks that `reset` sets do not rise strictly */
    WIRDOKU_TOO_MANY_ATOMS = 7,          /* more than four atoms */
    WIRDOKU_BYTES_LEFT = 8,              /* bytes are left after the last line */
    WIRDOKU_NO_BOUND_LINE = 9,           /* not `bound=` and a number of the text's form, ended by LF */
    WIRDOKU_NO_SUCH_STATE = 10,          /* a number of the state is outside its group, or an unused slot is not 0 */
    WIRDOKU_NOT_WELL_FORMED = 20,        /* the record is not well formed */
    WIRDOKU_ABOVE_64 = 21,               /* the bound, or the length of the run, is above 64 */
    WIRDOKU_WORDS_TOO_SHORT = 22,        /* the word buffer is shorter than the list; the number of words needed is returned too */
    WIRDOKU_ASSIGNMENT_LENGTH = 23,      /* the assignment's length is not N */
    WIRDOKU_NOT_0_OR_1 = 24,             /* a byte of the assignment is not 0 or 1 */
    WIRDOKU_RUN_TOO_SHORT = 25,          /* the run buffer is shorter than the bound */
    WIRDOKU_CLAUSE_FALSE = 26,           /* a clause is false */
    WIRDOKU_NO_SUCH_STEP = 27,           /* a byte is H or more: no such delay or edge */
    WIRDOKU_STEP_NOT_ALLOWED = 28,       /* the step is not allowed: source, guard, range or invariant */
    WIRDOKU_NO_START = 29,               /* the initial state does not meet its invariant */
    WIRDOKU_NOT_IN_TARGET = 30,          /* the run does not end in the target */
    WIRDOKU_ASSIGNMENT_TOO_SHORT = 31,   /* the assignment buffer is shorter than N */
    WIRDOKU_FILE_TOO_SHORT = 32,         /* the byte buffer is shorter than the file; the number of bytes needed is returned too */
    WIRDOKU_OUT_OF_FORM_OR_PLACE = 33,   /* a line is of none of the forms or out of place; also a bare `c`, a CR outside a comment, or no LF */
    WIRDOKU_ABOVE_OR_NAMED_BEFORE = 34,  /* a literal's variable lies above the buffer's length or was named before */
    WIRDOKU_OUTPUT_INCOMPLETE = 35,      /* the closing 0 comes with a variable unnamed, or the text ends without it or without an `s` line */
    WIRDOKU_TOO_LARGE_TOGETHER = 38      /* the composed model has more locations, clocks, counters, edges or atoms than a model may have */
};

/* What a solver's output says, by the exit statuses of solvers. */
#define WIRDOKU_SATISFIABLE 10
#define WIRDOKU_UNSATISFIABLE 20

/* What became of a refutation (wirdoku_refute). */
#define WIRDOKU_REFUTED 1
#define WIRDOKU_NOT_REFUTED 2

/* The step byte of a part that stands still (wirdoku_pair_parts). No step byte of a model is as great. */
#define WIRDOKU_STAYS 255

/* Limits of a model text, of a model, and of what is asked about it. */
#define WIRDOKU_MAX_TEXT 8192           /* bytes of a text */
#define WIRDOKU_MAX_LOCATIONS 16        /* locations; at least 1 */
#define WIRDOKU_MAX_CLOCKS 4
#define WIRDOKU_MAX_COUNTERS 4
#define WIRDOKU_MAX_EDGES 32
#define WIRDOKU_MAX_LABEL 15            /* the label of an edge; 0 means private */
#define WIRDOKU_MAX_ATOMS 4             /* atoms of an invariant, and of a guard */
#define WIRDOKU_MAX_CLOCK_CONSTANT 30   /* a constant that a clock is compared with */
#define WIRDOKU_MAX_COUNTER_VALUE 31    /* a counter's value, a constant that it is compared with or set to, an offset in both directions */
#define WIRDOKU_MAX_STEPS 64            /* the bound, and the length of a run */
#define WIRDOKU_MAX_VARIABLES 21776     /* N, at most: a buffer of so many bytes takes every assignment */
#define WIRDOKU_MAX_WORDS 6730133       /* a buffer of so many words takes every list; wirdoku_counts tells the words of one */
#define WIRDOKU_MAX_FILE 34193259       /* a buffer of so many bytes takes every file; wirdoku_dimacs tells the bytes of one, also with 32 */

/* `place`: the line for 2 to 8, the byte's index for 24, the clause's index for 26, the step for 27 and 28, else 0. */
struct wirdoku_answer {
    uint8_t number;
    size_t place;
};

/* The totals of the clause list. After 22 `words` is the number needed. */
struct wirdoku_sizes {
    uint8_t number;
    size_t line;
    size_t variables;
    size_t clauses;
    size_t words;
};

/* `bytes`: the file's length, for 0 and for 32; else 0. */
struct wirdoku_file {
    uint8_t number;
    size_t line;
    size_t bytes;
};

/* What a model declares; the ceiling M; the lengths S and H of a state block and of a choice block. */
struct wirdoku_shape {
    uint8_t number;
    size_t line;
    uint8_t locations;
    uint8_t initial;
    uint8_t target;
    uint8_t clocks;
    uint8_t counters;
    uint8_t edges;
    size_t ceiling;
    size_t state;
    size_t choices;
};

/* A state: the location, and what each counter and each clock shows. A slot that is not declared shows 0. */
struct wirdoku_state {
    uint8_t location;
    uint8_t counters[WIRDOKU_MAX_COUNTERS];
    uint8_t clocks[WIRDOKU_MAX_CLOCKS];
};

struct wirdoku_state_answer {
    uint8_t number;
    size_t line;
    struct wirdoku_state state;
};

/* `line`: for 33 and 34 the line that is refused; for 35 the line of the closing 0 or, where the output ends too early, the line that is
 * missing, one more than the lines that LF ends. `outcome`: WIRDOKU_SATISFIABLE, WIRDOKU_UNSATISFIABLE, or 0 after a refusal. */
struct wirdoku_output {
    uint8_t number;
    size_t line;
    uint8_t outcome;
};

/* `words`: the words of the list, where the lemmas begin, also after 22; after another refusal 0. `outcome`: WIRDOKU_REFUTED,
 * WIRDOKU_NOT_REFUTED, or 0 after a refusal. */
struct wirdoku_refutation {
    uint8_t number;
    size_t line;
    size_t words;
    uint8_t outcome;
};

/* Two texts read and composed. `text`: 1 or 2, the text that is refused with 1 to 8, else 0; `line`: its line for 2 to 8, else 0. */
struct wirdoku_pair {
    uint8_t number;
    uint8_t text;
    size_t line;
};

/* What a step byte of a composed model is for each part: a step byte of the first model and one of the second, each with its own ceiling, or
 * WIRDOKU_STAYS for a part that stands still. */
struct wirdoku_part_steps {
    uint8_t number;
    size_t line;
    uint8_t first;
    uint8_t second;
};

/* Reads the text: 1 to 8. */
struct wirdoku_answer wirdoku_read(const uint8_t *text, size_t text_len);

/* What the model declares: 1 to 8. */
struct wirdoku_shape wirdoku_shape(const uint8_t *text, size_t text_len);

/* The totals of the list for a bound, by formula: 1 to 8, 21. */
struct wirdoku_sizes wirdoku_counts(const uint8_t *text, size_t text_len, size_t bound);

/* Writes the list for a bound from the start of `out`: 1 to 8, 21, 22. */
struct wirdoku_sizes wirdoku_emit(const uint8_t *text, size_t text_len, size_t bound, int32_t *out, size_t out_len);

/* Writes the list for a bound as a DIMACS file from the start of `out`: 1 to 8, 21, 32. The file is the line `p cnf VARIABLES CLAUSES`, then
 * a line for each clause: its literals and 0, one space apart. Every line ends with LF; there are no comments. */
struct wirdoku_file wirdoku_dimacs(const uint8_t *text, size_t text_len, size_t bound, uint8_t *out, size_t out_len);

/* The size program's question: a bound line and a model text: 9, 1 to 8, 21, 22. It writes the list from the start of `out`. */
struct wirdoku_sizes wirdoku_size(const uint8_t *input, size_t input_len, int32_t *out, size_t out_len);

/* The initial state, whether or not its invariant holds: 1 to 8, and then a state of zeros. */
struct wirdoku_state_answer wirdoku_initial(const uint8_t *text, size_t text_len);

/* One step byte from a state: 1 to 8, 10, 27, 28, and then the given state; else the new one. */
struct wirdoku_state_answer wirdoku_step(const uint8_t *text, size_t text_len, struct wirdoku_state state, uint8_t byte);

/* Walks a run, a byte for each step: 1 to 8, 21, 29, 27, 28, 30. */
struct wirdoku_answer wirdoku_walk(const uint8_t *text, size_t text_len, const uint8_t *run, size_t run_len);

/* Writes the run of an assignment (a byte 0 or 1 for each variable) from the start of `run`: 1 to 8, 21, 23, 24, 25, 26. */
struct wirdoku_answer wirdoku_assignment_to_run(const uint8_t *text, size_t text_len, size_t bound,
                                                const uint8_t *assignment, size_t assignment_len, uint8_t *run, size_t run_len);

/* Writes the assignment of a run from the start of `assignment`: 1 to 8, 21, 29, 27, 28, 30, 31. */
struct wirdoku_answer wirdoku_run_to_assignment(const uint8_t *text, size_t text_len, const uint8_t *run, size_t run_len,
                                                uint8_t *assignment, size_t assignment_len);

/* Reads what a solver prints, in the form of the competitions: 33, 34, 35. It is one line `s SATISFIABLE` or `s UNSATISFIABLE`; after the
 * first, lines of `v` and literals, one space apart, the last literal of all 0; lines that begin with `c` and a space are skipped anywhere.
 * Every line ends with LF. The buffer has a byte for each variable, so that its length, which may be any, is the greatest variable. If the
 * outcome is WIRDOKU_SATISFIABLE, every byte is written: 1 for a bare literal, 0 for one with a minus; else the buffer holds what it held. */
struct wirdoku_output wirdoku_output_to_assignment(const uint8_t *output, size_t output_len, uint8_t *assignment, size_t assignment_len);

/* Checks a refutation of the list for a bound: 1 to 8, 21, 22. The caller puts lemmas into `words` behind the place of the list, whose length
 * wirdoku_counts tells: clauses in the list's form, each closed by 0, up to the end of `words`, the last one that is used empty. The call writes
 * the list in front of them and reads the hints in order. A hint is the index in `words` where a clause of the list or an earlier lemma begins.
 * For the first lemma its literals are taken to be false. A hint's clause is looked at without the literals that are taken to be false: if one
 * literal is left, its opposite is taken to be false too; if none is left, the lemma is accepted, and the next lemma is due, with its own
 * literals alone; if more are left, the list is not refuted. It is refuted once the empty lemma is accepted: then the model has no run of at
 * most `bound` steps into its target (crates/claims/proofs/Claims.antt). A word above 21,776 in size, a hint that names no earlier clause and
 * hints that end too early mean not refuted. Neither outcome is a refusal: the list stands in front of `words` and the lemmas are as they were. */
struct wirdoku_refutation wirdoku_refute(const uint8_t *text, size_t text_len, size_t bound, int32_t *words, size_t words_len,
                                         const uint32_t *hints, size_t hints_len);

/* Two models as one (docs/MEANING.md). The calls below read two texts and compose their models, the clocks and counters of the second after
 * those of the first; location (i, j) is i times the second's locations plus j. Each answers as the call on one text does for the composed
 * model: first the refusal of the first text (1 to 8), then that of the second (1 to 8), then 38, with place or line 0, then the call's own.
 * Which text a number 1 to 8 is about is told by wirdoku_pair_read. Both texts may be the same one. */

/* Reads both texts and composes them: 1 to 8, 38. */
struct wirdoku_pair wirdoku_pair_read(const uint8_t *first, size_t first_len, const uint8_t *second, size_t second_len);

/* What the composed model declares: 1 to 8, 38. */
struct wirdoku_shape wirdoku_pair_shape(const uint8_t *first, size_t first_len, const uint8_t *second, size_t second_len);

/* The totals of its list for a bound: 1 to 8, 38, 21. */
struct wirdoku_sizes wirdoku_pair_counts(const uint8_t *first, size_t first_len, const uint8_t *second, size_t second_len, size_t bound);

/* Writes its list for a bound from the start of `out`: 1 to 8, 38, 21, 22. */
struct wirdoku_sizes wirdoku_pair_emit(const uint8_t *first, size_t first_len, const uint8_t *second, size_t second_len, size_t bound,
                                       int32_t *out, size_t out_len);

/* Writes its list for a bound as a DIMACS file from the start of `out`: 1 to 8, 38, 21, 32. */
struct wirdoku_file wirdoku_pair_dimacs(const uint8_t *first, size_t first_len, const uint8_t *second, size_t second_len, size_t bound,
                                        uint8_t *out, size_t out_len);

/* Its initial state, whether or not its invariant holds: 1 to 8, 38, and then a state of zeros. */
struct wirdoku_state_answer wirdoku_pair_initial(const uint8_t *first, size_t first_len, const uint8_t *second, size_t second_len);

/* One step byte from a state of it: 1 to 8, 38, 10, 27, 28, and then the given state; else the new one. */
struct wirdoku_state_answer wirdoku_pair_step(const uint8_t *first, size_t first_len, const uint8_t *second, size_t second_len,
                                              struct wirdoku_state state, uint8_t byte);

/* Walks a run of it: 1 to 8, 38, 21, 29, 27, 28, 30. */
struct wirdoku_answer wirdoku_pair_walk(const uint8_t *first, size_t first_len, const uint8_t *second, size_t second_len,
                                        const uint8_t *run, size_t run_len);

/* Writes the run of an assignment from the start of `run`: 1 to 8, 38, 21, 23, 24, 25, 26. */
struct wirdoku_answer wirdoku_pair_assignment_to_run(const uint8_t *first, size_t first_len, const uint8_t *second, size_t second_len,
                                                     size_t bound, const uint8_t *assignment, size_t assignment_len,
                                                     uint8_t *run, size_t run_len);

/* Writes the assignment of a run from the start of `assignment`: 1 to 8, 38, 21, 29, 27, 28, 30, 31. */
struct wirdoku_answer wirdoku_pair_run_to_assignment(const uint8_t *first, size_t first_len, const uint8_t *second, size_t second_len,
                                                     const uint8_t *run, size_t run_len, uint8_t *assignment, size_t assignment_len);

/* Checks a refutation of its list for a bound: 1 to 8, 38, 21, 22. */
struct wirdoku_refutation wirdoku_pair_refute(const uint8_t *first, size_t first_len, const uint8_t *second, size_t second_len, size_t bound,
                                              int32_t *words, size_t words_len, const uint32_t *hints, size_t hints_len);

/* What a step byte of the composed model is for each part: 1 to 8, 38, 27 for a byte of H or more, and then 0 and 0. A delay is the smaller of
 * itself and the part's own ceiling, for each. An edge of one model alone is that edge's step byte in its own model, and WIRDOKU_STAYS for the
 * other; an edge of both is each one's own. */
struct wirdoku_part_steps wirdoku_pair_parts(const uint8_t *first, size_t first_len, const uint8_t *second, size_t second_len, uint8_t byte);

#ifdef __cplusplus
}
#endif
#endif
