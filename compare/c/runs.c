/* States, runs and assignments: 10 and 21 to 31; P1, P3 to P10. */
#include "check.h"
#include <string.h>

/* Model A with a clock, and x0>=1 as invariant of its initial location (P10). */
static struct text without_start(void) {
    return with_line(with_line(file_text("models/a.txt"), 4, "clocks=1"), 6, "inv=x0>=1");
}

static void steps(struct text b) {
    struct text w = without_start();
    check_state("B: initial", wirdoku_initial(b.at, b.length), WIRDOKU_ACCEPTED, 0, state_of(0, 0, 0));
    check_state("initial, its invariant fails", wirdoku_initial(w.at, w.length), WIRDOKU_ACCEPTED, 0, state_of(0, 0, 0));
    check_state("B: edge 0", wirdoku_step(b.at, b.length, state_of(0, 0, 2), 5), WIRDOKU_ACCEPTED, 0, state_of(1, 0, 0));
    check_state("B: edge 1", wirdoku_step(b.at, b.length, state_of(1, 0, 2), 6), WIRDOKU_ACCEPTED, 0, state_of(2, 1, 2));
    check_state("B: edge 2", wirdoku_step(b.at, b.length, state_of(1, 0, 3), 7), WIRDOKU_ACCEPTED, 0, state_of(3, 0, 3));
    check_state("B: delay 4 to the ceiling", wirdoku_step(b.at, b.length, state_of(0, 1, 3), 4), WIRDOKU_ACCEPTED, 0, state_of(0, 1, 4));
    check_state("B: invariant", wirdoku_step(b.at, b.length, state_of(1, 0, 0), 4), WIRDOKU_STEP_NOT_ALLOWED, 0, state_of(1, 0, 0));
    check_state("B: range", wirdoku_step(b.at, b.length, state_of(1, 1, 2), 6), WIRDOKU_STEP_NOT_ALLOWED, 0, state_of(1, 1, 2));
    check_state("B: guard", wirdoku_step(b.at, b.length, state_of(1, 0, 2), 7), WIRDOKU_STEP_NOT_ALLOWED, 0, state_of(1, 0, 2));
    check_state("B: source", wirdoku_step(b.at, b.length, state_of(0, 0, 3), 7), WIRDOKU_STEP_NOT_ALLOWED, 0, state_of(0, 0, 3));
    check_state("B: byte 8", wirdoku_step(b.at, b.length, state_of(1, 0, 3), 8), WIRDOKU_NO_SUCH_STEP, 0, state_of(1, 0, 3));
    check_state("B: byte 255", wirdoku_step(b.at, b.length, state_of(1, 0, 3), 255), WIRDOKU_NO_SUCH_STEP, 0, state_of(1, 0, 3));
    check_state("B: location 4", wirdoku_step(b.at, b.length, state_of(4, 0, 0), 0), WIRDOKU_NO_SUCH_STATE, 0, state_of(4, 0, 0));
    check_state("B: v0 of 2", wirdoku_step(b.at, b.length, state_of(0, 2, 0), 0), WIRDOKU_NO_SUCH_STATE, 0, state_of(0, 2, 0));
    check_state("B: x0 of 5", wirdoku_step(b.at, b.length, state_of(0, 0, 5), 8), WIRDOKU_NO_SUCH_STATE, 0, state_of(0, 0, 5));
    for (size_t slot = 1; slot < 4; slot++) {
        struct wirdoku_state counter = state_of(0, 0, 0), clock = state_of(0, 0, 0);
        counter.counters[slot] = 1;
        clock.clocks[slot] = 1;
        check_state("B: an unused counter", wirdoku_step(b.at, b.length, counter, 0), WIRDOKU_NO_SUCH_STATE, 0, counter);
        check_state("B: an unused clock", wirdoku_step(b.at, b.length, clock, 0), WIRDOKU_NO_SUCH_STATE, 0, clock);
    }
}

/* A state with another number in every slot goes in, and another one comes out. */
static void all_slots(void) {
    struct text t = text_of("locations=12\ninit=10\ntarget=11\nclocks=4\nvars=4\nvar=9,1\nvar=9,2\nvar=9,3\nvar=9,4\n"
                            "inv=-\ninv=-\ninv=-\ninv=-\ninv=-\ninv=-\ninv=-\ninv=-\ninv=-\ninv=-\ninv=-\ninv=-\nedges=1\n"
                            "from=10\nto=11\nlabel=13\nwhen=x0<=30\nset=v0:=v3+0,v1:=v2+4,v2:=v1-6,v3:=v0-2\nreset=x1,x3\n");
    const struct wirdoku_state start = slots_of(10, 0x01020304, 0), before = slots_of(10, 0x01020304, 0x05060708);
    const struct wirdoku_state waited = slots_of(10, 0x01020304, 0x15161718), after = slots_of(11, 0x04070102, 0x05000700);
    check_state("every slot: initial", wirdoku_initial(t.at, t.length), WIRDOKU_ACCEPTED, 0, start);
    check_state("every slot: delay", wirdoku_step(t.at, t.length, before, 16), WIRDOKU_ACCEPTED, 0, waited);
    check_state("every slot: edge", wirdoku_step(t.at, t.length, before, 32), WIRDOKU_ACCEPTED, 0, after);
    check_state("every slot: refused", wirdoku_step(t.at, t.length, after, 32), WIRDOKU_STEP_NOT_ALLOWED, 0, after);
}

/* The edge from the counters' values before to those after. */
static void set_to(const char *set, uint32_t before, uint32_t after) {
    struct text t = two_counters(set);
    check_state(set, wirdoku_step(t.at, t.length, slots_of(0, before, 0), 2), WIRDOKU_ACCEPTED, 0, slots_of(1, after, 0));
}

/* Updates happen in their written order. */
static void listed_updates(void) {
    set_to("set=v0:=v0+1,v1:=v0+0", 0x00000000, 0x01010000);
    set_to("set=v1:=v0+0,v0:=v0+1", 0x00000000, 0x01000000);
    set_to("set=v0:=v1+0,v1:=v0+0", 0x00010000, 0x01010000);
    set_to("set=v1:=v0+0,v0:=v1+0", 0x00010000, 0x00000000);
    struct text t = two_counters("set=v0:=v0+1,v1:=v0+0");
    const struct wirdoku_state raised = slots_of(0, 0x01000000, 0);
    check_state("v0 is at its greatest value", wirdoku_step(t.at, t.length, raised, 2), WIRDOKU_STEP_NOT_ALLOWED, 0, raised);
    const uint8_t run[1] = {2}, expected[15] = {1, 0, 1, 0, 1, 0, 0, 0, 1, 0, 1, 0, 1, 0, 1};
    uint8_t *assignment = lent_bytes(16);
    check_answer("the raised counter copied", wirdoku_run_to_assignment(t.at, t.length, run, 1, assignment, 16), WIRDOKU_ACCEPTED, 0);
    check("the raised counter copied: its assignment", memcmp(assignment, expected, 15) == 0 && bytes_kept(assignment, 15, 16));
}

/* The edge of model A with two clocks, from their values before to those after. */
static void clocks_to(const char *reset, uint32_t before, uint32_t after) {
    struct text t = two_clocks("when=x0<=1", reset);
    check_state(reset, wirdoku_step(t.at, t.length, slots_of(0, 0, before), 3), WIRDOKU_ACCEPTED, 0, slots_of(1, 0, after));
}

/* Copies of clocks read the values before the edge. */
static void copied_clocks(void) {
    clocks_to("reset=x0,x1:=x0", 0x01020000, 0x00010000);
    clocks_to("reset=x0:=x1,x1", 0x01020000, 0x02000000);
    clocks_to("reset=x0:=x1,x1:=x0", 0x01020000, 0x02010000);
    clocks_to("reset=x1:=x0", 0x01020000, 0x01010000);
    clocks_to("reset=x0:=x0,x1:=x1", 0x01020000, 0x01020000);
    struct text t = two_clocks("when=x0>=1", "reset=x0,x1:=x0");
    const uint8_t run[2] = {1, 3}, other[2] = {0, 3};
    uint8_t *assignment = lent_bytes(33), *back = lent_bytes(2);
    check_answer("a clock saved too early", wirdoku_walk(t.at, t.length, other, 2), WIRDOKU_STEP_NOT_ALLOWED, 2);
    check_answer("a clock saved", wirdoku_walk(t.at, t.length, run, 2), WIRDOKU_ACCEPTED, 0);
    check_answer("a clock saved: to assignment", wirdoku_run_to_assignment(t.at, t.length, run, 2, assignment, 33), WIRDOKU_ACCEPTED, 0);
    check_answer("a clock saved: and back", wirdoku_assignment_to_run(t.at, t.length, 2, assignment, 32, back, 2), WIRDOKU_ACCEPTED, 0);
    check("a clock saved: its run, nothing beyond its assignment", memcmp(back, run, 2) == 0 && bytes_kept(assignment, 32, 33));
    /* the last three bytes are the values 0 to 2 of x1: 1 becomes 0 */
    assignment[29] = 1;
    assignment[30] = 0;
    check_answer("a clock lost", wirdoku_assignment_to_run(t.at, t.length, 2, assignment, 32, back, 2), WIRDOKU_CLAUSE_FALSE, 97);
}

static struct wirdoku_answer walked(struct text t, size_t length, uint8_t b0, uint8_t b1, uint8_t b2) {
    const uint8_t bytes[3] = {b0, b1, b2};
    uint8_t *run = block(length);
    memcpy(run, bytes, length);
    return wirdoku_walk(t.at, t.length, run, length);
}

static void walks(struct text a, struct text b) {
    struct text w = without_start();
    unsigned runs = 0;
    for (unsigned n = 0; n < 9; n++)
        runs += walked(a, 2, n / 3, n % 3, 0).number == WIRDOKU_ACCEPTED;
    check("P5 A at 2 has exactly 4 runs", runs == 4);
    runs = 0;
    for (unsigned n = 0; n < 512; n++)
        runs += walked(b, 3, n / 64, n / 8 % 8, n % 8).number == WIRDOKU_ACCEPTED;
    check("P6 B at 3 has one run", runs == 1);
    check_answer("P6 B: 5 3 7", walked(b, 3, 5, 3, 7), WIRDOKU_ACCEPTED, 0);
    check_answer("P7 B: 5 4 7", walked(b, 3, 5, 4, 7), WIRDOKU_STEP_NOT_ALLOWED, 2);
    check_answer("P8 B: 5 3", walked(b, 2, 5, 3, 0), WIRDOKU_NOT_IN_TARGET, 0);
    check_answer("P9 B: 5 3 8", walked(b, 3, 5, 3, 8), WIRDOKU_NO_SUCH_STEP, 3);
    check_answer("P10 no start, the empty run", walked(w, 0, 0, 0, 0), WIRDOKU_NO_START, 0);
    check_answer("B: the empty run", walked(b, 0, 0, 0, 0), WIRDOKU_NOT_IN_TARGET, 0);
    uint8_t *zeros = block(WIRDOKU_MAX_STEPS + 1);
    memset(zeros, 0, WIRDOKU_MAX_STEPS + 1);
    check_answer("A: 64 steps", wirdoku_walk(a.at, a.length, zeros, WIRDOKU_MAX_STEPS), WIRDOKU_NOT_IN_TARGET, 0);
    check_answer("A: 65 steps", wirdoku_walk(a.at, a.length, zeros, WIRDOKU_MAX_STEPS + 1), WIRDOKU_ABOVE_64, 0);
    check_answer("65 steps: 21 before 29", wirdoku_walk(w.at, w.length, zeros, WIRDOKU_MAX_STEPS + 1), WIRDOKU_ABOVE_64, 0);
    zeros[63] = 2;
    check_answer("A: 64 steps into the target", wirdoku_walk(a.at, a.length, zeros, WIRDOKU_MAX_STEPS), WIRDOKU_ACCEPTED, 0);
}

/* All assignments of a length: how many are accepted; the others must be refused with 26 and leave the run buffer as it was. */
static unsigned accepted(struct text t, size_t bound, size_t length) {
    unsigned found = 0;
    uint8_t *assignment = block(length);
    for (unsigned n = 0; n < 1u << length; n++) {
        for (size_t i = 0; i < length; i++)
            assignment[i] = n >> i & 1;
        uint8_t *run = lent_bytes(bound);
        struct wirdoku_answer answer = wirdoku_assignment_to_run(t.at, t.length, bound, assignment, length, run, bound);
        if (answer.number == WIRDOKU_ACCEPTED)
            found++;
        else
            check("refused with 26, untouched", answer.number == WIRDOKU_CLAUSE_FALSE && bytes_kept(run, 0, bound));
    }
    return found;
}

static void assignments(struct text a) {
    const uint8_t right[7] = {1, 0, 0, 0, 1, 0, 1}, wrong[7] = {1, 0, 1, 0, 0, 1, 0}, bytes[7] = {1, 0, 0, 2, 1, 0, 3};
    uint8_t *run = lent_bytes(3);
    check("P1 A at 0 is not satisfied by any", accepted(a, 0, 2) == 0);
    check("P3 A at 1 is satisfied by one", accepted(a, 1, 7) == 1);
    check_answer("P4 a clause is false", wirdoku_assignment_to_run(a.at, a.length, 1, wrong, 7, run, 3), WIRDOKU_CLAUSE_FALSE, 15);
    check_answer("6 bytes", wirdoku_assignment_to_run(a.at, a.length, 1, right, 6, run, 3), WIRDOKU_ASSIGNMENT_LENGTH, 0);
    check_answer("another bound's length", wirdoku_assignment_to_run(a.at, a.length, 2, right, 7, run, 3), WIRDOKU_ASSIGNMENT_LENGTH, 0);
    check_answer("bytes 2 and 3", wirdoku_assignment_to_run(a.at, a.length, 1, bytes, 7, run, 0), WIRDOKU_NOT_0_OR_1, 3);
    check_answer("no room", wirdoku_assignment_to_run(a.at, a.length, 1, right, 7, run, 0), WIRDOKU_RUN_TOO_SHORT, 0);
    check_answer("no room: 25 before 26", wirdoku_assignment_to_run(a.at, a.length, 1, wrong, 7, run, 0), WIRDOKU_RUN_TOO_SHORT, 0);
    check_answer("bound 65", wirdoku_assignment_to_run(a.at, a.length, 65, right, 7, run, 3), WIRDOKU_ABOVE_64, 0);
    check("assignments refused, untouched", bytes_kept(run, 0, 3));
    check_answer("P3 accepted", wirdoku_assignment_to_run(a.at, a.length, 1, right, 7, run, 3), WIRDOKU_ACCEPTED, 0);
    check("P3 its run is 2, nothing beyond", run[0] == 2 && bytes_kept(run, 1, 3));
}

static void encoded(struct text a) {
    const uint8_t right[7] = {1, 0, 0, 0, 1, 0, 1}, two[2] = {2, 2}, one[1] = {1}, third[2] = {0, 3};
    uint8_t zeros[65] = {0};
    struct text w = without_start();
    uint8_t *lent = lent_bytes(9);
    check_answer("6 bytes lent", wirdoku_run_to_assignment(a.at, a.length, two, 1, lent, 6), WIRDOKU_ASSIGNMENT_TOO_SHORT, 0);
    check_answer("not in the target", wirdoku_run_to_assignment(a.at, a.length, one, 1, lent, 9), WIRDOKU_NOT_IN_TARGET, 0);
    check_answer("30 before 31", wirdoku_run_to_assignment(a.at, a.length, one, 1, lent, 0), WIRDOKU_NOT_IN_TARGET, 0);
    check_answer("no such step", wirdoku_run_to_assignment(a.at, a.length, third, 2, lent, 9), WIRDOKU_NO_SUCH_STEP, 2);
    check_answer("not allowed", wirdoku_run_to_assignment(a.at, a.length, two, 2, lent, 9), WIRDOKU_STEP_NOT_ALLOWED, 2);
    check_answer("no start", wirdoku_run_to_assignment(w.at, w.length, two, 1, lent, 9), WIRDOKU_NO_START, 0);
    check_answer("65 steps", wirdoku_run_to_assignment(a.at, a.length, zeros, 65, lent, 9), WIRDOKU_ABOVE_64, 0);
    check("runs refused, untouched", bytes_kept(lent, 0, 9));
    check_answer("P3 the run 2", wirdoku_run_to_assignment(a.at, a.length, two, 1, lent, 9), WIRDOKU_ACCEPTED, 0);
    check("P3 its assignment, nothing beyond", memcmp(lent, right, 7) == 0 && bytes_kept(lent, 7, 9));
}

static void there_and_back(struct text b) {
    const uint8_t run[3] = {5, 3, 7};
    uint8_t *assignment = lent_bytes(WIRDOKU_MAX_VARIABLES), *back = lent_bytes(64);
    check_answer("B: to assignment", wirdoku_run_to_assignment(b.at, b.length, run, 3, assignment, WIRDOKU_MAX_VARIABLES), WIRDOKU_ACCEPTED, 0);
    check("B: 68 bytes, nothing beyond", !bytes_kept(assignment, 67, 68) && bytes_kept(assignment, 68, WIRDOKU_MAX_VARIABLES));
    check_answer("B: and back", wirdoku_assignment_to_run(b.at, b.length, 3, assignment, 68, back, 64), WIRDOKU_ACCEPTED, 0);
    check("B: the run 5 3 7, nothing beyond", memcmp(back, run, 3) == 0 && bytes_kept(back, 3, 64));
}

void run_tests(void) {
    struct text a = file_text("models/a.txt"), b = file_text("models/logger_b.txt");
    steps(b);
    all_slots();
    listed_updates();
    copied_clocks();
    walks(a, b);
    assignments(a);
    encoded(a);
    there_and_back(b);
}
