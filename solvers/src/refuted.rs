//! Refutations by cadical, turned into lemmas with hints: the proved call, the next
//! command's plain checker and the reference program, which writes a list of its
//! own, accept them and agree on damaged copies. A list that can be satisfied is
//! never refuted.

use std::io::{Read, Write};
use std::process::{Command, Stdio};
use std::thread;

use reference::gen::rng::Rng;
use reference::refutation::{read, refute, refutes, NOT_REFUTED, REFUTED};
use reference::subject::Subject;
use wirdoku::library;
use wirdoku_next::refutation::prove::CADICAL;
use wirdoku_next::refutation::{check, refutation, Limits, Refutation};

use crate::desk::Desk;
use crate::list::emitted;
use crate::pairs::Pair;
use crate::tally::Tally;

/// The shipped model without a run, at the greatest bound.
const WITHOUT_RUN: (&str, usize) = ("boot_logger_kicked.txt", 64);
/// Every so many pairs, of those with a run and of those without.
const EVERY: usize = 4;
/// Damaged copies of each refutation.
const COPIES: usize = 12;

/// Random words and hints.
const ANY_WORDS: usize = 200_000;

/// How often each was met.
#[derive(Default)]
struct Met {
    refuted: usize,
    lemmas: usize,
    damaged_accepted: usize,
    damaged_refused: usize,
    satisfiable: usize,
}

pub fn test(desk: &mut Desk, tally: &mut Tally, pairs: &[Pair], shipped: &[Subject]) {
    println!("refutations by cadical: every {EVERY}th pair of the above, {COPIES} damaged copies of each, and {WITHOUT_RUN:?}");
    let mut met = Met::default();
    let mut last = Refutation { lemmas: vec![0], hints: vec![0] };
    let without = pairs.iter().filter(|pair| !pair.has_run).step_by(EVERY).map(|pair| (&pair.subject, pair.bound));
    let named = shipped.iter().filter(|subject| subject.name == WITHOUT_RUN.0).map(|subject| (subject, WITHOUT_RUN.1));
    for (subject, bound) in without.chain(named) {
        let outcome = refuted(desk, subject, bound, &mut met).map(|found| last = found);
        tally.about(subject, &format!("refutation at bound {bound}"), outcome);
    }
    for pair in pairs.iter().filter(|pair| pair.has_run).step_by(EVERY) {
        let outcome = satisfiable(pair, &last, &mut met);
        tally.about(&pair.subject, &format!("refutation of another list at bound {}", pair.bound), outcome);
    }
    tally.share("refutations", met.refuted, 40);
    tally.share("lemmas that are not empty", met.lemmas, 10_000);
    tally.share("damaged refutations refused", met.damaged_refused, 400);
    tally.share("damaged refutations that still refute", met.damaged_accepted, 20);
    tally.share("satisfiable lists not refuted", met.satisfiable, 40);
    tally.share("random words that refute", any_words(), 1_000);
}

/// Random words and hints, of which both checkers accept the same; how many. None are counted if they differ.
fn any_words() -> usize {
    let mut rng = Rng::new(22);
    let mut accepted = 0;
    for _ in 0..ANY_WORDS {
        let length = rng.below(16);
        let words: Vec<i32> = (0..length).map(|_| rng.pick(&[0, 0, 0, 1, -1, 2, -2, 3, -3])).collect();
        let begins: Vec<usize> = (0..=length).filter(|place| *place == 0 || words[place - 1] == 0).collect();
        let (n, hints) = (rng.below(length + 2), rng.below(9));
        let hints: Vec<u32> =
            (0..hints).map(|_| if rng.one_in(12) { rng.below(length + 2) } else { rng.pick(&begins) } as u32).collect();
        let plain = check::refuted(&words, n, &hints);
        if plain != refutes(&words, n, &hints) {
            println!("{plain} by the plain checker, but not by the reference: {words:?} from {n}, {hints:?}");
            return 0;
        }
        accepted += usize::from(plain);
    }
    accepted
}

fn refuted(desk: &mut Desk, subject: &Subject, bound: usize, met: &mut Met) -> Result<Refutation, String> {
    let list = emitted(subject, bound)?;
    desk.calls += 1;
    let drat = drat(&list.file_with(&[])).map_err(|error| error.to_string())?;
    let found = refutation(&list.words, &drat, Limits::default()).map_err(|why| why.to_string())?;
    if !agreed(subject, bound, &list.words, &found)? {
        return Err("the lemmas and hints are not accepted".to_string());
    }
    if read(&found.to_string()) != Some((found.lemmas.clone(), found.hints.clone())) {
        return Err("the reference reads the refutation's file otherwise".to_string());
    }
    met.refuted += 1;
    met.lemmas += found.lemmas.iter().filter(|word| **word == 0).count() - 1;
    let mut rng = Rng::new(met.refuted as u64);
    for _ in 0..COPIES {
        let copy = damaged(&mut rng, &list.words, &found);
        if agreed(subject, bound, &list.words, &copy)? {
            met.damaged_accepted += 1;
        } else {
            met.damaged_refused += 1;
        }
    }
    Ok(found)
}

fn satisfiable(pair: &Pair, other: &Refutation, met: &mut Met) -> Result<(), String> {
    let list = emitted(&pair.subject, pair.bound)?;
    let mut rng = Rng::new(pair.bound as u64);
    let units = Refutation { lemmas: vec![0], hints: (0..list.words.len() as u32).collect() };
    for found in [other.clone(), damaged(&mut rng, &list.words, other), units] {
        if agreed(&pair.subject, pair.bound, &list.words, &found)? {
            return Err(format!("a list that can be satisfied is refuted: {found:?}"));
        }
    }
    met.satisfiable += 1;
    Ok(())
}

/// Whether both accept a refutation of the list for a bound.
fn agreed(subject: &Subject, bound: usize, list: &[i32], found: &Refutation) -> Result<bool, String> {
    let words = [list, &found.lemmas].concat();
    let plain = check::refuted(&words, list.len(), &found.hints);
    let mut lent = vec![i32::MIN; list.len()];
    lent.extend_from_slice(&found.lemmas);
    let answer = refute(&subject.model, bound, &mut lent, &found.hints);
    let due = (0, list.len(), if plain { REFUTED } else { NOT_REFUTED });
    if (answer.refusal, answer.words as usize, answer.outcome) != due || lent != words {
        return Err(format!("{plain} by the plain checker, but {answer:?} by the reference: {found:?}"));
    }
    // the proved call, on words that hold something else where the list is to be
    let mut lent = vec![i32::MIN; list.len()];
    lent.extend_from_slice(&found.lemmas);
    let proved = library::refute(&subject.text, bound, &mut lent, &found.hints);
    if (proved.number, proved.words, proved.outcome == library::REFUTED) != (0, list.len(), plain) || lent != words {
        return Err(format!("{plain} by the plain checker, but {proved:?} by the proved call: {found:?}"));
    }
    Ok(plain)
}

/// A copy with one thing changed.
fn damaged(rng: &mut Rng, list: &[i32], found: &Refutation) -> Refutation {
    let mut copy = found.clone();
    let (word, hint) = (rng.below(copy.lemmas.len()), rng.below(copy.hints.len()));
    match rng.below(6) {
        0 => copy.lemmas[word] = -copy.lemmas[word],
        1 => copy.lemmas[word] = if rng.one_in(2) { 0 } else { rng.pick(list) },
        2 => copy.hints[hint] = rng.pick(&found.hints),
        3 => copy.hints[hint] = rng.below(list.len() + copy.lemmas.len()) as u32,
        4 => copy.hints.truncate(hint),
        _ => drop(copy.lemmas.remove(word)),
    }
    copy
}

/// The DRAT file that cadical writes for a DIMACS file. Both go through pipes.
fn drat(file: &[u8]) -> std::io::Result<Vec<u8>> {
    let mut command = Command::new("/bin/sh");
    command.args(["-c", CADICAL, "cadical"]).stdin(Stdio::piped()).stdout(Stdio::piped());
    let mut child = command.spawn()?;
    let (input, mut output) = (child.stdin.take(), child.stdout.take());
    let mut proof = Vec::new();
    thread::scope(|scope| {
        scope.spawn(move || input.map(|mut pipe| pipe.write_all(file)));
        output.as_mut().map_or(Ok(0), |pipe| pipe.read_to_end(&mut proof))
    })?;
    child.wait()?;
    Ok(proof)
}
