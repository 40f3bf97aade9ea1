/* Tests of the library's calls from C, through the header: sizes and offsets of the structs, the document's worked cases, every refusal
 * that a call on a text, on two or on a solver's output can meet, limits, lent buffers compared whole. Run at the top of the repository;
 * scripts/c-calls builds it and runs it under valgrind. The last line is 'N passed, M failed'. */
#include "check.h"

int main(void) {
    layout_tests();
    /* an answer may be written beyond a struct that is too small */
    if (none_failed()) {
        text_tests();
        list_tests();
        file_tests();
        run_tests();
        output_tests();
        refutation_tests();
        pair_tests();
    }
    return finish();
}
