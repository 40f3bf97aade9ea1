/* Refutations: the list of model A for 0, with an empty lemma and with two, and what does not refute it; 1 to 8, 21, 22; two texts. The words are
 * compared whole after each call, and hints are a block of their own. */
#include "check.h"
#include <stdio.h>
#include <string.h>

/* Model A's list for 0: clauses at 0, 3, 6 and 8. */
static const int32_t A[10] = {1, 2, 0, -1, -2, 0, 1, 0, 2, 0};

#define MOST 4

static const struct {
    const char *name;
    size_t lemma_words;
    int32_t lemmas[MOST];
    size_t hints;
    uint32_t hint[2 * MOST];
    uint8_t outcome;
} CASES[] = {
    {"an empty lemma", 1, {0}, 3, {6, 8, 3}, WIRDOKU_REFUTED},
    {"in another order", 1, {0}, 3, {8, 6, 3}, WIRDOKU_REFUTED},
    {"hints left over", 1, {0}, 4, {6, 8, 3, 4294967295}, WIRDOKU_REFUTED},
    {"words left over", 4, {0, 5, -5, 7}, 3, {6, 8, 3}, WIRDOKU_REFUTED},
    {"two lemmas", 3, {-2, 0, 0}, 4, {6, 3, 10, 8}, WIRDOKU_REFUTED},
    {"a literal of the greatest variable", 3, {-21776, 0, 0}, 6, {6, 8, 3, 6, 8, 3}, WIRDOKU_REFUTED},
    {"a literal of no variable", 3, {21777, 0, 0}, 6, {6, 8, 3, 6, 8, 3}, WIRDOKU_NOT_REFUTED},
    {"the smallest word behind the refutation", 2, {0, INT32_MIN}, 3, {6, 8, 3}, WIRDOKU_NOT_REFUTED},
    {"no lemma", 0, {0}, 3, {6, 8, 3}, WIRDOKU_NOT_REFUTED},
    {"no hint", 1, {0}, 0, {0}, WIRDOKU_NOT_REFUTED},
    {"hints that end too early", 1, {0}, 2, {6, 8}, WIRDOKU_NOT_REFUTED},
    {"a hint into a clause", 1, {0}, 3, {6, 8, 4}, WIRDOKU_NOT_REFUTED},
    {"a hint to the lemma itself", 1, {0}, 1, {10}, WIRDOKU_NOT_REFUTED},
    {"a hint beyond the words", 1, {0}, 3, {6, 8, 4294967295}, WIRDOKU_NOT_REFUTED},
    {"two literals left", 1, {0}, 3, {0, 8, 3}, WIRDOKU_NOT_REFUTED},
    {"the last lemma is not empty", 2, {-2, 0}, 2, {6, 3}, WIRDOKU_NOT_REFUTED},
    {"the first lemma's literals do not count for the second", 3, {-2, 0, 0}, 4, {6, 3, 6, 3}, WIRDOKU_NOT_REFUTED},
    {"a lemma that no 0 closes", 1, {-2}, 2, {6, 3}, WIRDOKU_NOT_REFUTED},
};

static void cases(struct text a) {
    for (size_t i = 0; i < sizeof CASES / sizeof *CASES; i++) {
        size_t length = 10 + CASES[i].lemma_words;
        int32_t *words = lent_words(length);
        uint32_t *hints = block(CASES[i].hints * sizeof *hints);
        memcpy(words + 10, CASES[i].lemmas, CASES[i].lemma_words * sizeof *words);
        memcpy(hints, CASES[i].hint, CASES[i].hints * sizeof *hints);
        struct wirdoku_refutation found = wirdoku_refute(a.at, a.length, 0, words, length, hints, CASES[i].hints);
        check_refutation(CASES[i].name, found, WIRDOKU_ACCEPTED, 0, 10, CASES[i].outcome);
        int list = memcmp(words, A, sizeof A) == 0;
        check(CASES[i].name, list && memcmp(words + 10, CASES[i].lemmas, CASES[i].lemma_words * sizeof *words) == 0);
    }
}

/* The list for 1 can be satisfied. */
static void satisfiable(struct text a) {
    const uint32_t hints[3] = {6, 49, 3};
    int32_t *words = lent_words(52);
    words[51] = 0;
    check_refutation("A at 1", wirdoku_refute(a.at, a.length, 1, words, 52, hints, 3), WIRDOKU_ACCEPTED, 0, 51, WIRDOKU_NOT_REFUTED);
}

static void refused(struct text a) {
    const uint32_t hints[3] = {6, 8, 3};
    struct text none = text_of("locations=2\ninit=2\n");
    int32_t *words = lent_words(11);
    check_refutation("a text", wirdoku_refute(none.at, none.length, 0, words, 11, hints, 3), WIRDOKU_NOT_DECLARED, 2, 0, 0);
    check_refutation("65", wirdoku_refute(a.at, a.length, 65, words, 11, hints, 3), WIRDOKU_ABOVE_64, 0, 0, 0);
    check_refutation("the greatest bound", wirdoku_refute(a.at, a.length, SIZE_MAX, words, 11, hints, 3), WIRDOKU_ABOVE_64, 0, 0, 0);
    check_refutation("a word too few", wirdoku_refute(a.at, a.length, 0, words, 9, hints, 3), WIRDOKU_WORDS_TOO_SHORT, 0, 10, 0);
    check_refutation("the longest bound", wirdoku_refute(a.at, a.length, 64, words, 11, hints, 3), WIRDOKU_WORDS_TOO_SHORT, 0,
                     wirdoku_counts(a.at, a.length, 64).words, 0);
    check_refutation("no text", wirdoku_refute(NULL, 0, 0, NULL, 0, NULL, 0), WIRDOKU_NO_SUCH_LINE, 1, 0, 0);
    check_refutation("no words", wirdoku_refute(a.at, a.length, 0, NULL, 0, NULL, 0), WIRDOKU_WORDS_TOO_SHORT, 0, 10, 0);
    check("refused: the words are as they were", words_kept(words, 0, 11));
}

/* Model A twice: a list for 0 of four locations, one clause for the initial one and one for the target. */
static void pairs(struct text a) {
    size_t length = wirdoku_pair_counts(a.at, a.length, a.at, a.length, 0).words;
    int32_t *words = lent_words(length + 1);
    uint32_t hints[3] = {0, (uint32_t)length - 2, (uint32_t)length - 4};
    wirdoku_pair_emit(a.at, a.length, a.at, a.length, 0, words, length);
    /* the clause that no two locations of this pair are true */
    for (size_t i = 1; i + 1 < length; i++)
        if (words[i - 1] == 0 && words[i] == -words[length - 4] && words[i + 1] == -words[length - 2])
            hints[0] = (uint32_t)i;
    const uint32_t due[3] = {hints[1], hints[2], hints[0]};
    words[length] = 0;
    check_refutation("pair: refuted", wirdoku_pair_refute(a.at, a.length, a.at, a.length, 0, words, length + 1, due, 3), WIRDOKU_ACCEPTED, 0, length,
                     WIRDOKU_REFUTED);
    check_refutation("pair: a hint too few", wirdoku_pair_refute(a.at, a.length, a.at, a.length, 0, words, length + 1, due, 2), WIRDOKU_ACCEPTED, 0,
                     length, WIRDOKU_NOT_REFUTED);
    check_refutation("pair: a word too few", wirdoku_pair_refute(a.at, a.length, a.at, a.length, 0, words, length - 1, due, 3),
                     WIRDOKU_WORDS_TOO_SHORT, 0, length, 0);
    check_refutation("pair: 65", wirdoku_pair_refute(a.at, a.length, a.at, a.length, 65, words, length + 1, due, 3), WIRDOKU_ABOVE_64, 0, 0, 0);
    check_refutation("pair: no texts", wirdoku_pair_refute(NULL, 0, NULL, 0, 0, NULL, 0, NULL, 0), WIRDOKU_NO_SUCH_LINE, 1, 0, 0);
    struct text large = declaring(8, 0, 0, 0, 0, "-");
    check_refutation("pair: 38", wirdoku_pair_refute(large.at, large.length, large.at, large.length, 0, words, length + 1, due, 3),
                     WIRDOKU_TOO_LARGE_TOGETHER, 0, 0, 0);
}

void refutation_tests(void) {
    struct text a = file_text("models/a.txt");
    cases(a);
    satisfiable(a);
    refused(a);
    pairs(a);
}
