//! Models at every limit, at bound 64: the list with the most words, the longest file, and runs of 64 steps both ways; the same of two
//! texts, of which one is the blank model.

use reference::gen::models;
use reference::gen::rng::Rng;
use reference::gen::runs::walk;
use reference::model::{rising_order, Atom, ClockUpdate, Edge, Model, Relation, Update, MAX_BOUND, MAX_LABEL};
use wirdoku::library::{self, FileAnswer, Sizes};

use crate::expected::List;
use crate::lent::Lent;
use crate::pair_calls::Pair;
use crate::part::Seeds;
use crate::tally::Tally;
use crate::texts::written;
use crate::{calls, pair_calls, show};

/// The totals of the longest list.
const MOST: Sizes = Sizes { number: 0, line: 0, variables: 21_776, clauses: 1_876_043, words: 6_729_941 };
/// Length and 64-bit FNV-1a of the longest file.
const LONGEST: (usize, u64) = (34_193_259, 0x85d4_6b12_2a02_944e);
/// Seeds of the runs.
const RUNS: [u64; 3] = [7_000_000, 7_000_001, 7_000_002];

pub fn largest(tally: &mut Tally, _: Seeds) {
    longest_list(tally);
    longest_file(tally);
    for seed in RUNS {
        let (model, run) = model_and_run(seed);
        both_ways(tally, seed, &written(&model), &run);
    }
    longest_list_of_a_pair(tally);
    run_of_a_pair(tally);
}

/// The longest list and its file come out of two texts too.
fn longest_list_of_a_pair(tally: &mut Tally) {
    let (blank, text) = (written(&Model::blank()), written(&models::largest()));
    for (first, second) in [(&text, &blank), (&blank, &text)] {
        tally.answer("pair_counts", MOST, library::pair_counts(first, second, MAX_BOUND));
        let mut lent = Lent::new(1, MOST.words + 100);
        tally.answer("pair_emit", MOST, library::pair_emit(first, second, MAX_BOUND, lent.slice()));
        tally.buffer("pair_emit", &lent, &List::of_text(&text, MAX_BOUND).words());
    }
    tally.case(|| "the longest list, of two texts".to_string());
}

/// A run of 64 steps of a model at every limit, which is first or second.
fn run_of_a_pair(tally: &mut Tally) {
    let (model, run) = model_and_run(RUNS[0]);
    let (blank, text) = (written(&Model::blank()), written(&model));
    for (first, second) in [(&text, &blank), (&blank, &text)] {
        let pair = Pair::of(first, second);
        pair_calls::walk(tally, &pair, &run);
        tally.same("accepted", 0, library::pair_walk(first, second, &run).number);
        let mut assignment = vec![9; MOST.variables];
        tally.same("accepted", 0, library::pair_run_to_assignment(first, second, &run, &mut assignment).number);
        for room in [MOST.variables, MOST.variables - 1] {
            pair_calls::encode(tally, room as u64, &pair, &run, room);
        }
        for room in [MAX_BOUND, MAX_BOUND - 1] {
            pair_calls::decode(tally, room as u64, &pair, (MAX_BOUND, &assignment), room);
        }
        for byte in 0..=255 {
            pair_calls::parts(tally, &pair, byte);
        }
    }
    tally.case(|| "a run of two texts at every limit".to_string());
}

/// The longest list: totals, words; 22 with one word less.
fn longest_list(tally: &mut Tally) {
    let text = written(&models::largest());
    tally.answer("counts", MOST, library::counts(&text, MAX_BOUND));
    let mut lent = Lent::new(1, MOST.words + 100);
    tally.answer("emit", MOST, library::emit(&text, MAX_BOUND, lent.slice()));
    tally.buffer("emit", &lent, &List::of_text(&text, MAX_BOUND).words());
    calls::list(tally, 2, &text, MAX_BOUND, &[MOST.words, MOST.words - 1]);
    let input = [b"bound=64\n", &text[..]].concat();
    let list = List::of_input(&input);
    calls::size(tally, 4, &input, &list, MOST.words);
    calls::size(tally, 5, &input, &list, 16_384);
    calls::walk(tally, &text, &[]);
    tally.case(|| "the longest list".to_string());
}

/// The longest file: its length and checksum, all bytes; a byte more is left as it was; 32 with a byte less.
fn longest_file(tally: &mut Tally) {
    let text = written(&models::longest_file());
    let list = List::of_text(&text, MAX_BOUND);
    let bytes = list.file();
    let mut file = vec![0; LONGEST.0];
    let answer = library::dimacs(&text, MAX_BOUND, &mut file);
    tally.answer("dimacs", FileAnswer { number: 0, line: 0, bytes: LONGEST.0 }, answer);
    let digest = |digest: u64, byte: &u8| (digest ^ u64::from(*byte)).wrapping_mul(0x0000_0100_0000_01b3);
    tally.same("checksum", LONGEST.1, file.iter().fold(0xcbf2_9ce4_8422_2325, digest));
    for room in [LONGEST.0, LONGEST.0 + 1, LONGEST.0 - 1, 65_536, 0] {
        calls::file(tally, room as u64, &text, MAX_BOUND, (&list, &bytes), room);
    }
    tally.case(|| "the longest file".to_string());
}

/// A model at every limit and a run of 64 steps of it.
pub fn model_and_run(seed: u64) -> (Model, Vec<u8>) {
    let mut model = busy();
    let (run, end) = walk(&mut Rng::new(seed), &model, MAX_BOUND);
    model.target = end.location;
    (model, run)
}

/// A model at every limit whose edges can often be taken: two from each location, with four atoms in
/// every guard and invariant, an update of each counter, in orders of which most matter, resets, copies and every label.
fn busy() -> Model {
    let mut model = models::largest();
    let at_most = |clock| Atom::clock(clock, Relation::LessEqual, 30);
    model.invariant = [[at_most(0), at_most(1), at_most(2), Atom::clock(3, Relation::GreaterEqual, 0)]; 16];
    for (index, edge) in model.edge.iter_mut().enumerate() {
        *edge = busy_edge(index as u8);
    }
    model
}

fn busy_edge(index: u8) -> Edge {
    let (one, other) = (index % 4, (index + 1) % 4);
    let rotate = |from: u8| Update::Sum { source: from, offset: index as i8 % 5 - 2 };
    let last = if index < 16 { rotate(0) } else { Update::Keep };
    let mut edge = Edge {
        source: index % 16,
        target: (index + 1 + 2 * (index / 16)) % 16,
        label: MAX_LABEL - index % 16,
        guard: [
            Atom::clock(one, Relation::LessEqual, 29),
            Atom::clock(other, Relation::GreaterEqual, index / 16),
            Atom::counter(one, Relation::NotEqual, index),
            Atom::counter(other, Relation::Less, 31),
        ],
        updates: [rotate(1), rotate(2), Update::Constant(index), last],
        order: [0; 4],
        clock_updates: busy_clocks(usize::from(index)),
    };
    edge.order = rising_order(&edge.updates);
    let listed = edge.listed().len();
    edge.order[..listed].rotate_left(usize::from(index) % listed);
    edge
}

/// Two clocks are reset; or one is reset and saved in the next, and the third is a copy of the fourth; or two are
/// exchanged, and the third is its own copy.
fn busy_clocks(index: usize) -> [ClockUpdate; 4] {
    let clocks = [0, 1, 2, 3].map(|more| (index + more) % 4);
    let (reset, copy) = (ClockUpdate::Reset, |place: usize| ClockUpdate::Copy(clocks[place] as u8));
    let of_places = match index % 3 {
        0 => [reset, reset, ClockUpdate::Unchanged],
        1 => [reset, copy(0), copy(3)],
        _ => [copy(1), copy(0), copy(2)],
    };
    let mut updates = Edge::BLANK.clock_updates;
    for (clock, update) in clocks.into_iter().zip(of_places) {
        updates[clock] = update;
    }
    updates
}

/// Run to assignment and back; run buffers of 63 and 64; bytes flipped from the first to the last.
fn both_ways(tally: &mut Tally, seed: u64, text: &[u8], run: &[u8]) {
    let variables = MOST.variables;
    tally.same("steps", MAX_BOUND, run.len());
    calls::walk(tally, text, run);
    for room in [variables, variables - 1, variables + 50] {
        calls::encode(tally, seed + room as u64, text, run, room);
    }
    let mut assignment = vec![9; variables];
    tally.same("accepted", 0, library::run_to_assignment(text, run, &mut assignment).number);
    let mut back = Lent::new(seed, MAX_BOUND + 1);
    let answer = library::assignment_to_run(text, MAX_BOUND, &assignment, back.slice());
    tally.same("accepted", 0, answer.number);
    tally.buffer("run to assignment to run", &back, run);
    for room in [MAX_BOUND - 1, MAX_BOUND] {
        calls::decode(tally, seed, text, (MAX_BOUND, &assignment), room);
    }
    tally.case(|| format!("seed {seed} run {}", show::run(run)));
    let places = [0, 15, 16, 271, 272, 335, 336, 5_000, variables / 2, 21_439, 21_440, variables - 1];
    for place in places {
        let mut other = assignment.clone();
        other[place] ^= 1;
        calls::decode(tally, seed, text, (MAX_BOUND, &other), MAX_BOUND);
        tally.case(|| format!("seed {seed} byte {place} flipped, run {}", show::run(run)));
    }
}
