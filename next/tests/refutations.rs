//! Real refutations: cadical on the lists of shipped models, its file turned into lemmas with hints, and the plain checker. Needs
//! cadical.

mod common;
mod refuting;

use common::model_text;
use refuting::{assert_refuted, drat, refuted_by, with_lemmas, Random, BINARY, TEXT};
use wirdoku_next::library;
use wirdoku_next::refutation::{check, Refutation, Why};

/// The list of a model for a bound, and its DIMACS file.
fn list(name: &str, bound: usize) -> (Vec<i32>, Vec<u8>) {
    let text = model_text(&format!("{}.txt", name)).into_bytes();
    let mut words = vec![0; library::counts(&text, bound).words];
    assert_eq!(library::emit(&text, bound, &mut words).number, 0);
    let mut file = vec![0; library::dimacs(&text, bound, &mut []).bytes];
    assert_eq!(library::dimacs(&text, bound, &mut file).number, 0);
    (words, file)
}

fn refutation_of(name: &str, bound: usize, form: &str) -> (Vec<i32>, Refutation) {
    let (list, file) = list(name, bound);
    let (status, proof) = drat(&file, form);
    assert_eq!(status, Some(20), "{} at {}", name, bound);
    let found = assert_refuted(&format!("{} at {}", name, bound), &list, &proof);
    (list, found)
}

#[test]
fn the_model_without_a_run_is_refuted_by_both_forms() {
    let (_, text) = refutation_of("boot_logger_kicked", 64, TEXT);
    let (_, binary) = refutation_of("boot_logger_kicked", 64, BINARY);
    assert!(text == binary);
    assert!(text.lemmas.len() > 10_000, "{} words of lemmas are no test", text.lemmas.len());
}

#[test]
fn the_pair_without_a_run_is_refuted() {
    let [first, second] = ["logger.txt", "watchdog_patient.txt"].map(|name| model_text(name).into_bytes());
    let mut list = vec![0; library::pair_counts(&first, &second, 64).words];
    assert_eq!(library::pair_emit(&first, &second, 64, &mut list).number, 0);
    let mut file = vec![0; library::pair_dimacs(&first, &second, 64, &mut []).bytes];
    assert_eq!(library::pair_dimacs(&first, &second, 64, &mut file).number, 0);
    let (status, proof) = drat(&file, BINARY);
    assert_eq!(status, Some(20));
    assert_refuted("the pair", &list, &proof);
}

/// Every bound below the smallest one of every shipped model.
#[test]
fn bounds_below_the_smallest_are_refuted() {
    let mut lists = 0;
    for row in model_text("EXPECTED.tsv").lines().skip(1) {
        let fields: Vec<&str> = row.split('\t').collect();
        let smallest = fields[1].parse().unwrap_or(0);
        for bound in 0..smallest {
            refutation_of(fields[0], bound, [TEXT, BINARY][bound % 2]);
            lists += 1;
        }
    }
    assert!(lists > 20, "{} lists are no test", lists);
}

/// What is damaged may still refute the list, since it is refuted; but most damage is met by a hint.
#[test]
fn damaged_lemmas_and_hints_are_refused() {
    let (list, found) = refutation_of("retry", 10, BINARY);
    let words = with_lemmas(&list, &found.lemmas);
    let accepted = |words: &[i32], hints: &[u32]| check::refuted(words, list.len(), hints);
    let (lemmas, mut random, mut refused) = (found.lemmas.len(), Random(1), [0; 4]);
    assert!(lemmas > 100, "{} words of lemmas are no test", lemmas);
    for _ in 0..100 {
        let at = list.len() + random.below(lemmas);
        let mut other = words.clone();
        other[at] = if other[at] == 0 { random.literal(100) } else { -other[at] };
        refused[0] += usize::from(!accepted(&other, &found.hints));

        let mut other = words.clone();
        other.drain(beginning(&words, at)..=at + words[at..].iter().position(|word| *word == 0).unwrap());
        refused[1] += usize::from(!accepted(&other, &found.hints));

        let mut hints = found.hints.clone();
        let at = random.below(hints.len());
        hints[at] = beginning(&words, random.below(list.len())) as u32;
        refused[2] += usize::from(!accepted(&words, &hints));

        hints = found.hints.clone();
        hints[at] += 1;
        refused[3] += usize::from(!accepted(&words, &hints));
        assert!(!accepted(&words, &found.hints[..at]), "{} hints of {}", at, found.hints.len());
    }
    assert!(refused.iter().all(|count| *count > 80), "{:?} of 100 refused", refused);
}

/// Where the clause with a word begins.
fn beginning(words: &[i32], at: usize) -> usize {
    words[..at].iter().rposition(|word| *word == 0).map_or(0, |before| before + 1)
}

/// The refutation for a bound below the smallest says nothing of the list for the smallest, which is satisfiable.
#[test]
fn a_refutation_of_another_list_is_refused() {
    let (_, file) = list("retry", 10);
    let (_, proof) = drat(&file, BINARY);
    let (satisfiable, file) = list("retry", 11);
    assert_eq!(drat(&file, BINARY).0, Some(10));
    let why = refuted_by(&satisfiable, &proof).unwrap_err();
    assert!(matches!(why, Why::NotRup(_) | Why::NoEmptyClause), "{}", why);
    let (_, other) = refutation_of("retry", 10, BINARY);
    assert!(!check::refuted(&with_lemmas(&satisfiable, &other.lemmas), satisfiable.len(), &other.hints));
}
