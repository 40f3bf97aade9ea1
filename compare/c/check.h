/* What the tests of the C calls share: counting, answers compared field by field, texts, and lent buffers. */
#ifndef CHECK_H
#define CHECK_H
#include "wirdoku.h"

/* A test: counted, and named if it fails. */
void check(const char *name, int holds);
void check_answer(const char *name, struct wirdoku_answer found, uint8_t number, size_t place);
void check_sizes(const char *name, struct wirdoku_sizes found, uint8_t number, size_t line, size_t variables, size_t clauses, size_t words);
void check_file(const char *name, struct wirdoku_file found, uint8_t number, size_t line, size_t bytes);
void check_output(const char *name, struct wirdoku_output found, uint8_t number, size_t line, uint8_t outcome);
void check_refutation(const char *name, struct wirdoku_refutation found, uint8_t number, size_t line, size_t words, uint8_t outcome);
void check_pair(const char *name, struct wirdoku_pair found, uint8_t number, uint8_t text, size_t line);
void check_parts(const char *name, struct wirdoku_part_steps found, uint8_t number, size_t line, uint8_t first, uint8_t second);
void check_shape(const char *name, struct wirdoku_shape found, struct wirdoku_shape expected);
void check_state(const char *name, struct wirdoku_state_answer found, uint8_t number, size_t line, struct wirdoku_state state);

int none_failed(void);
/* Writes 'N passed, M failed' and returns the program's exit status. */
int finish(void);

/* Memory of exactly so many bytes, each block its own: valgrind sees an access beyond its end. It stays until the program ends. */
void *block(size_t size);

struct text {
    const uint8_t *at;
    size_t length;
};
struct text text_of(const char *string);
struct text file_text(const char *path);
/* One text after the other. */
struct text joined(struct text first, struct text second);
/* The text with line `line`, from 1, replaced by a string. */
struct text with_line(struct text base, size_t line, const char *string);
/* Model A with two counters of greatest value 1, and a `set` line for its edge, which is line 15. */
struct text two_counters(const char *set);
/* Model A with two clocks, and a `when` and a `reset` line for its edge, which are lines 12 and 14. */
struct text two_clocks(const char *when, const char *reset);
/* A string so many times. */
struct text repeated(const char *string, size_t count);
/* A text of so many bytes LF. */
struct text line_feeds(size_t count);
/* A model that declares so much; counters reach `greatest`, every inv and when line has the value `atoms`, edges lead from 0 to 0
 * and have the labels 0 to 15 in turn. */
struct text declaring(unsigned locations, unsigned clocks, unsigned counters, unsigned greatest, unsigned edges, const char *atoms);

/* Lent buffers hold a pattern; `kept` tells whether they still do from an index on. */
int32_t *lent_words(size_t length);
int words_kept(const int32_t *words, size_t from, size_t length);
uint8_t *lent_bytes(size_t length);
int bytes_kept(const uint8_t *bytes, size_t from, size_t length);

/* Structs by the names of their fields, so that an expected answer does not follow the header's order. */
struct wirdoku_state state_of(uint8_t location, uint8_t v0, uint8_t x0);
struct wirdoku_state slots_of(uint8_t location, uint32_t counters, uint32_t clocks);
struct wirdoku_shape refused_shape(uint8_t number, size_t line);

/* The tests, by what they concern. */
void layout_tests(void);
void text_tests(void);
void list_tests(void);
void file_tests(void);
void run_tests(void);
void output_tests(void);
void refutation_tests(void);
void pair_tests(void);
#endif
