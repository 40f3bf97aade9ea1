//! The greatest totals, attained by one record, and the greatest text.

mod common;

use common::{fnv, fnv_of_bytes};
use reference::dimacs::file;
use reference::gen::models::{at_the_last_location, largest, longest_file, model, order, Size};
use reference::gen::rng::Rng;
use reference::list::{digest, emit, totals, visit_clauses, Flow, Totals};
use reference::model::{ceiling, choice_length, state_length, well_formed, Atom, ClockUpdate, Model, Relation, Update};
use reference::numbering::Numbering;
use reference::text::{read, write};

/// 64-bit FNV-1a of the longest file.
const LONGEST_DIGEST: u64 = 0x85d4_6b12_2a02_944e;

#[test]
fn the_largest_model_attains_the_greatest_totals() {
    let model = largest();
    assert!(well_formed(&model));
    assert_eq!((ceiling(&model), state_length(&model), choice_length(&model)), (31, 272, 64));
    let expected = Totals { variables: 21_776, clauses: 1_876_043, words: 6_729_941 };
    assert_eq!(totals(&model, 64), Ok(expected));
}

#[test]
fn equality_atoms_give_slightly_less() {
    let mut model = largest();
    let equal = Atom::clock(0, Relation::Equal, 30);
    model.invariant = [[equal; 4]; 16];
    for edge in &mut model.edge {
        edge.guard = [equal; 4];
    }
    let expected = Totals { variables: 21_776, clauses: 1_863_755, words: 6_693_077 };
    assert_eq!(totals(&model, 64), Ok(expected));
}

#[test]
fn the_largest_list_is_emitted_into_just_enough_words() {
    let mut buffer = vec![0; 6_729_941];
    let emission = emit(&largest(), 64, &mut buffer);
    assert_eq!((emission.refusal, emission.totals.words), (0, 6_729_941));
    assert_eq!(buffer.last(), Some(&0));
    assert_eq!(buffer.iter().map(|word| word.unsigned_abs()).max(), Some(21_776));
    assert_eq!(digest(&largest(), 64), Ok(fnv(&buffer)));
}

/// The largest model with guards on counter 0: its names have the fewest digits.
fn fewest_digits() -> Model {
    let mut model = largest();
    let never = Atom::counter(0, Relation::Less, 0);
    for edge in &mut model.edge {
        edge.guard = [never; 4];
    }
    model.edge[0].guard[0] = Atom::clock(0, Relation::Greater, 30);
    model
}

#[test]
fn files_of_the_largest_lists() {
    // The same totals, but the numbers written have more or fewer digits. The
    // longest line has 64 numbers of five digits, its 0 and its LF.
    for (model, length) in [(fewest_digits(), 34_175_466), (longest_file(), 34_193_259)] {
        assert!(well_formed(&model));
        assert_eq!(totals(&model, 64), totals(&largest(), 64));
        let file = file(&model, 64).unwrap();
        assert_eq!((file.len(), bytes(&model, 64)), (length, length));
        assert_eq!(file.split_inclusive('\n').map(str::len).max(), Some(386));
    }
    let longest = file(&longest_file(), 64).unwrap();
    assert_eq!(fnv_of_bytes(longest.bytes()), LONGEST_DIGEST);
}

/// The length of a file, without writing it.
fn bytes(model: &Model, bound: usize) -> usize {
    let totals = totals(model, bound).unwrap();
    let mut bytes = format!("p cnf {} {}\n", totals.variables, totals.clauses).len() + 2 * totals.clauses as usize;
    let _ = visit_clauses(model, bound, &mut |clause| {
        bytes += clause.iter().map(|literal| usize::from(*literal < 0) + digits(literal.unsigned_abs()) + 1).sum::<usize>();
        Flow::Continue(())
    })
    .unwrap();
    bytes
}

fn digits(number: u32) -> usize {
    [10, 100, 1_000, 10_000].iter().filter(|power| **power <= number).count() + 1
}

/// The bound whose last step reads clocks with numbers of four and of five digits:
/// the last clock of state 29 has 9,985 to 10,016.
const SPLIT: usize = 30;

/// The longest file's model with one thing changed.
fn neighbour(rng: &mut Rng) -> Model {
    let (mut model, other) = (longest_file(), model(rng, Size::Full));
    let (one, slot, place) = (rng.below(32), rng.below(4), rng.below(16));
    match rng.below(8) {
        0 => model.init = rng.below(16) as u8,
        1 => model.target = rng.below(16) as u8,
        2 => model.invariant[place][slot] = other.invariant[place % usize::from(other.locations)][slot],
        3 => model.edge[one].guard[slot] = other.edge[one].guard[slot],
        4 => {
            model.edge[one].updates[slot] = other.edge[one].updates[slot];
            model.edge[one].order = order(rng, &model.edge[one].updates);
        }
        5 => model.edge[one].order = order(rng, &model.edge[one].updates),
        6 => model.edge[one].clock_updates[slot] = other.edge[one].clock_updates[slot],
        _ => (model.edge[one].source, model.edge[one].target) = (rng.below(16) as u8, rng.below(16) as u8),
    }
    model
}

#[test]
fn no_file_is_longer() {
    let limit = bytes(&longest_file(), SPLIT);
    let mut rng = Rng::new(1);
    for _ in 0..150 {
        for found in [neighbour(&mut rng), model(&mut rng, Size::Full)] {
            assert!(!well_formed(&found) || bytes(&found, SPLIT) <= limit);
        }
    }
}

/// Every other update of a clock makes the file shorter, but for the last clock
/// unchanged, which has the clauses of its copy to itself.
#[test]
fn copies_of_the_last_clock_are_the_longest() {
    let limit = bytes(&longest_file(), SPLIT);
    let others = [ClockUpdate::Unchanged, ClockUpdate::Reset, ClockUpdate::Copy(0), ClockUpdate::Copy(1), ClockUpdate::Copy(2)];
    for clock in 0..4 {
        for update in others {
            let mut model = longest_file();
            model.edge[31].clock_updates[clock] = update;
            let same = (clock, update) == (3, ClockUpdate::Unchanged);
            assert_eq!(bytes(&model, SPLIT) < limit, !same, "x{clock} {update:?}");
        }
    }
}

#[test]
fn the_choice_group_is_the_largest_piece() {
    let model = largest();
    let choices = Numbering::of(&model).choices(1);
    let members = choices.length as usize;
    let words = members + 1 + 3 * members * (members - 1) / 2;
    assert_eq!(words, 6_113);
}

#[test]
fn no_model_is_larger() {
    let limit = totals(&largest(), 3).unwrap();
    for seed in 0..300 {
        let found = totals(&model(&mut Rng::new(seed), Size::Full), 3).unwrap();
        assert!(found.variables <= limit.variables && found.clauses <= limit.clauses);
        assert!(found.words <= limit.words);
    }
}

/// A record whose every item is as long as it can be written.
fn longest_text() -> Model {
    let sum = Update::Sum { source: 0, offset: 31 };
    at_the_last_location(Atom::clock(0, Relation::LessEqual, 30), sum)
}

#[test]
fn the_longest_text_fits_the_reader() {
    let model = longest_text();
    let text = write(&model).unwrap();
    assert_eq!(text.len(), 4_896);
    assert_eq!(read(text.as_bytes()).model, model);
}
