//! Lemmas with hints: made by trying both values of variables, checked for the
//! lists of models without a run, and damaged.

mod common;

use std::env;
use std::fs;
use std::process;

use common::{model, LIGHT, MODEL_A, MODEL_B};
use reference::gen::rng::Rng;
use reference::list::words;
use reference::model::Model;
use reference::refutation::{read, refute, refutes, Refuting, NOT_REFUTED, REFUTED};
use reference::solve::all_solutions;

/// Makes lemmas and hints for a list.
struct Maker {
    words: Vec<i32>,
    hints: Vec<u32>,
}

impl Maker {
    /// The list followed by lemmas, and hints; none if it can be satisfied.
    fn refutation(list: &[i32]) -> Option<(Vec<i32>, Vec<u32>)> {
        let mut maker = Maker { words: list.to_vec(), hints: Vec::new() };
        maker.refute(&mut Vec::new()).then_some((maker.words, maker.hints))
    }

    /// Adds the lemma that some literals are not all true, after the lemmas for
    /// both values of a further variable where unit propagation does not suffice.
    fn refute(&mut self, assumed: &mut Vec<i32>) -> bool {
        let open = match self.propagated(assumed) {
            Err(hints) => return self.add(assumed, hints),
            Ok(None) => return false,
            Ok(Some(variable)) => variable,
        };
        for literal in [open, -open] {
            assumed.push(literal);
            let refuted = self.refute(assumed);
            assumed.pop();
            if !refuted {
                return false;
            }
        }
        let hints = self.propagated(assumed).expect_err("both values are refuted");
        self.add(assumed, hints)
    }

    fn add(&mut self, assumed: &[i32], hints: Vec<u32>) -> bool {
        self.words.extend(assumed.iter().map(|literal| -literal));
        self.words.push(0);
        self.hints.extend(hints);
        true
    }

    /// A variable without a value after unit propagation, if there is one; an
    /// error with hints if a clause is false.
    fn propagated(&self, assumed: &[i32]) -> Result<Option<i32>, Vec<u32>> {
        let (mut truths, mut hints) = (assumed.to_vec(), Vec::new());
        loop {
            let known = truths.len();
            let mut place = 0;
            for clause in self.words.split_inclusive(|word| *word == 0) {
                let literals = &clause[..clause.len() - 1];
                let mut left = literals.iter().filter(|literal| !truths.contains(&-**literal));
                match (left.next(), left.next()) {
                    (None, _) => {
                        hints.push(place);
                        return Err(hints);
                    }
                    (Some(only), None) if !truths.contains(only) => {
                        hints.push(place);
                        truths.push(*only);
                    }
                    _ => (),
                }
                place += clause.len() as u32;
            }
            if truths.len() == known {
                let variables = self.words.iter().map(|word| word.abs()).max().unwrap_or(0);
                return Ok((1..=variables).find(|variable| !truths.contains(variable) && !truths.contains(&-variable)));
            }
        }
    }
}

fn answer(model: &Model, bound: usize, lemmas: &[i32], hints: &[u32]) -> Refuting {
    let mut lent = vec![7; words(model, bound).expect("accepted").len()];
    lent.extend(lemmas);
    let answer = refute(model, bound, &mut lent, hints);
    assert_eq!(lent, [&words(model, bound).expect("accepted")[..], lemmas].concat());
    answer
}

#[test]
fn a_refutation_by_hand() {
    // (1 2) (-1 -2) (1) (2)
    let a = model(MODEL_A);
    assert_eq!(answer(&a, 0, &[0], &[6, 8, 3]), Refuting { refusal: 0, words: 10, outcome: REFUTED });
    assert_eq!(answer(&a, 0, &[0], &[6, 3, 8]), Refuting { refusal: 0, words: 10, outcome: REFUTED });
    assert_eq!(answer(&a, 0, &[-1, 0, 0], &[8, 3, 10, 6]).outcome, REFUTED);
    for (lemmas, hints) in [(&[0][..], &[3, 6, 8][..]), (&[0], &[6, 8]), (&[0], &[]), (&[], &[6, 8, 3]), (&[0], &[6, 9, 3])] {
        assert_eq!(answer(&a, 0, lemmas, hints), Refuting { refusal: 0, words: 10, outcome: NOT_REFUTED });
    }
    assert_eq!(answer(&a, 1, &[0], &[6, 8, 3]).outcome, NOT_REFUTED);
}

#[test]
fn refusals_leave_the_words() {
    let (a, mut broken) = (model(MODEL_A), model(MODEL_A));
    broken.init = 2;
    let rows = [(&broken, 0, 10, (20, 0)), (&a, 65, 10, (21, 0)), (&broken, 65, 0, (20, 0)), (&a, 0, 9, (22, 10))];
    for (model, bound, room, (refusal, needed)) in rows {
        let mut lent = vec![5; room];
        let answer = refute(model, bound, &mut lent, &[6, 8, 3]);
        assert_eq!((answer, lent), (Refuting { refusal, words: needed, outcome: 0 }, vec![5; room]));
    }
}

#[test]
fn bounds_below_the_shortest_run_are_refuted() {
    for (text, shortest) in [(MODEL_A, 1), (LIGHT, 2), (MODEL_B, 3)] {
        let model = model(text);
        for bound in 0..shortest {
            let list = words(&model, bound).expect("accepted");
            let (refuted, hints) = Maker::refutation(&list).expect("there is no run");
            assert_eq!(answer(&model, bound, &refuted[list.len()..], &hints).outcome, REFUTED);
            for fewer in 0..hints.len() {
                assert!(!refutes(&refuted, list.len(), &hints[..fewer]));
            }
            assert!(!refutes(&refuted[..refuted.len() - 1], list.len(), &hints));
            assert_eq!(answer(&model, shortest, &refuted[list.len()..], &hints).outcome, NOT_REFUTED);
        }
        assert!(Maker::refutation(&words(&model, shortest).expect("accepted")).is_none());
    }
}

/// What is accepted of damaged clauses, lemmas and hints cannot be satisfied.
#[test]
fn damaged_refutations() {
    let mut rng = Rng::new(22);
    let (mut accepted, mut refused) = (0, 0);
    for _ in 0..200 {
        let literals = [1, 2, 3, 4, 5, -1, -2, -3, -4, -5];
        let list: Vec<i32> = (0..34).flat_map(|_| [rng.pick(&literals), rng.pick(&literals), rng.pick(&literals), 0]).collect();
        let (made, hints) = match Maker::refutation(&list) {
            Some(found) => found,
            None => continue,
        };
        for _ in 0..20 {
            let (mut words, mut hints) = (made.clone(), hints.clone());
            let (word, hint) = (rng.below(words.len()), rng.below(hints.len()));
            if rng.one_in(2) {
                words[word] = -words[word];
            } else {
                hints[hint] = rng.below(words.len()) as u32;
            }
            if !refutes(&words, list.len(), &hints) {
                refused += 1;
                continue;
            }
            accepted += 1;
            let clauses: Vec<Vec<i32>> = words[..list.len()].split(|word| *word == 0).map(<[i32]>::to_vec).collect();
            assert_eq!(all_solutions(&clauses[..34], 5, 0), Some(Vec::new()), "{words:?} {hints:?}");
        }
    }
    assert!(accepted > 200 && refused > 200, "{accepted} accepted, {refused} refused");
}

#[test]
fn the_program_reads_a_file() {
    let path = env::temp_dir().join(format!("refutation-{}", process::id()));
    let output = |arguments: [&str; 2]| {
        let mut command = process::Command::new(env!("CARGO_BIN_EXE_reference"));
        let model = fs::File::open(concat!(env!("CARGO_MANIFEST_DIR"), "/../models/a.txt")).expect("a model");
        command.arg("refute").args(arguments).stdin(model);
        let output = command.output().expect("the program runs");
        (output.status.code(), String::from_utf8(output.stdout).expect("plain text"))
    };
    let file = path.to_str().expect("a plain name");
    fs::write(&path, "-1 0 0\n8 3 10 6\n").expect("a file");
    assert_eq!(output(["0", file]), (Some(0), "refusal=0\nwords=10\noutcome=1\n".to_string()));
    assert_eq!(output(["1", file]), (Some(0), "refusal=0\nwords=51\noutcome=2\n".to_string()));
    assert_eq!(output(["65", file]), (Some(0), "refusal=21\nwords=0\noutcome=0\n".to_string()));
    fs::write(&path, "-1 0 0\n").expect("a file");
    assert_eq!(output(["0", file]), (Some(2), String::new()));
    fs::remove_file(&path).expect("the file is there");
    for wrong in ["", "1 0\n", "1 0\n2 -3\n", "1 x\n2\n", "1  0\n2\n", "1 0\n2\n3\n", "1 0\n2"] {
        assert_eq!(read(wrong), None, "{wrong:?}");
    }
    assert_eq!(read("1 0 0\n2 3\n"), Some((vec![1, 0, 0], vec![2, 3])));
}
