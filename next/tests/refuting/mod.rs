//! What the tests of refutations share: cadical with its DRAT file, small lists, and their assignments tried one by one.
#![allow(dead_code)] // each test file uses a part

use std::io::{Read, Write};
use std::process::{Command, Stdio};
use std::thread;

use wirdoku_next::refutation::prove::CADICAL;
use wirdoku_next::refutation::{check, refutation, Limits, Refutation, Why};

pub const TEXT: &str = "--no-binary";
pub const BINARY: &str = "--binary";

/// The exit status of cadical on a DIMACS file, and the DRAT file that it writes, in the form that the option names. Both files go
/// through pipes.
pub fn drat(file: &[u8], form: &str) -> (Option<i32>, Vec<u8>) {
    let mut command = Command::new("/bin/sh");
    command.args(["-c", CADICAL, "cadical", form]).stdin(Stdio::piped()).stdout(Stdio::piped());
    let mut child = command.spawn().unwrap();
    let mut input = child.stdin.take().unwrap();
    let mut proof = Vec::new();
    thread::scope(|scope| {
        scope.spawn(move || input.write_all(file).unwrap());
        child.stdout.take().unwrap().read_to_end(&mut proof).unwrap();
    });
    (child.wait().unwrap().code(), proof)
}

/// The DIMACS file of a list.
pub fn dimacs(list: &[i32]) -> Vec<u8> {
    let variables = list.iter().map(|word| word.unsigned_abs()).max().unwrap_or(0);
    let mut file = format!("p cnf {} {}\n", variables, list.iter().filter(|word| **word == 0).count());
    for word in list {
        file.push_str(&word.to_string());
        file.push(if *word == 0 { '\n' } else { ' ' });
    }
    file.into_bytes()
}

pub fn refuted_by(list: &[i32], file: &[u8]) -> Result<Refutation, Why> {
    refutation(list, file, Limits::default())
}

/// The list followed by lemmas.
pub fn with_lemmas(list: &[i32], lemmas: &[i32]) -> Vec<i32> {
    [list, lemmas].concat()
}

/// Asserts that a file gives lemmas and hints, that the checker accepts them, and not one hint less.
pub fn assert_refuted(name: &str, list: &[i32], file: &[u8]) -> Refutation {
    let found = refuted_by(list, file).unwrap_or_else(|why| panic!("{}: {}", name, why));
    let words = with_lemmas(list, &found.lemmas);
    assert!(check::refuted(&words, list.len(), &found.hints), "{}", name);
    assert!(!check::refuted(&words, list.len(), &found.hints[..found.hints.len() - 1]), "{}", name);
    assert!(!check::refuted(&words[..words.len() - 1], list.len(), &found.hints), "{}", name);
    found
}

/// Whether some assignment of at most 12 variables makes every clause true.
pub fn satisfiable(list: &[i32]) -> bool {
    let variables = list.iter().map(|word| word.unsigned_abs()).max().unwrap_or(0);
    assert!(variables <= 12);
    (0u32..1 << variables).any(|bits| {
        let is_true = |literal: &i32| (bits >> (literal.unsigned_abs() - 1) & 1 == 1) == (*literal > 0);
        list.split_inclusive(|word| *word == 0).all(|clause| clause[..clause.len() - 1].iter().any(is_true))
    })
}

/// Numbers from a seed (splitmix64).
pub struct Random(pub u64);

impl Random {
    pub fn below(&mut self, limit: usize) -> usize {
        self.0 = self.0.wrapping_add(0x9e37_79b9_7f4a_7c15);
        let mut mixed = self.0;
        mixed = (mixed ^ (mixed >> 30)).wrapping_mul(0xbf58_476d_1ce4_e5b9);
        mixed = (mixed ^ (mixed >> 27)).wrapping_mul(0x94d0_49bb_1331_11eb);
        ((mixed ^ (mixed >> 31)) % limit as u64) as usize
    }

    pub fn literal(&mut self, variables: usize) -> i32 {
        let variable = self.below(variables) as i32 + 1;
        [variable, -variable][self.below(2)]
    }

    /// Clauses of 1 to 5 literals, few of them short, so that units alone seldom refute them; some have a literal twice, or one beside
    /// its opposite.
    pub fn list(&mut self, variables: usize, clauses: usize) -> Vec<i32> {
        let mut list = Vec::new();
        for _ in 0..clauses {
            let length = [1, 2, 2, 2, 3, 3, 3, 4, 5, 3][self.below(100).min(9)];
            let clause: Vec<i32> = (0..length).map(|_| self.literal(variables)).collect();
            list.extend_from_slice(&clause);
            if self.below(20) == 0 {
                list.extend([clause[0], self.literal(variables), -clause[self.below(length)]].iter().take(1 + self.below(3)));
            }
            list.push(0);
        }
        list
    }
}
