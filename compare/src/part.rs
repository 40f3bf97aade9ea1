//! The parts of the comparison, and the seeds that each goes through.

use std::time::Instant;

use crate::tally::{Due, Tally};
use crate::{assignments, fixed, joint, labels, largest, lists, outputs, pairs, runs, shipped, stack, texts, windows};

/// Seeds from the first on.
#[derive(Clone, Copy)]
pub struct Seeds {
    pub first: u64,
    pub count: u64,
}

impl Seeds {
    pub fn each(self) -> std::ops::Range<u64> {
        self.first..self.first + self.count
    }
}

pub struct Part {
    pub name: &'static str,
    pub about: &'static str,
    /// Seeds used if none are given; none are used if the count is 0.
    pub seeds: Seeds,
    /// What the part must meet with those seeds.
    due: Due,
    work: fn(&mut Tally, Seeds),
}

fn part(name: &'static str, about: &'static str, (first, count): (u64, u64), due: Due, work: fn(&mut Tally, Seeds)) -> Part {
    let seeds = Seeds { first, count };
    Part { name, about, seeds, due, work }
}

impl Part {
    /// Seeds from the part's first on, at most so many.
    pub fn at_most(&self, count: u64) -> Seeds {
        Seeds { count: self.seeds.count.min(count), ..self.seeds }
    }

    /// Compares with the given seeds, or with the part's own; gives the cases that passed and that failed.
    pub fn compare(&self, given: Option<Seeds>) -> (usize, usize) {
        let seeds = given.unwrap_or(self.seeds);
        let started = Instant::now();
        let mut tally = Tally::default();
        print!("{}: {}", self.name, self.about);
        match seeds.count {
            0 => println!(),
            count => println!(", seeds {} to {}", seeds.first, seeds.first + count - 1),
        }
        (self.work)(&mut tally, seeds);
        if tally.stopped() {
            println!("    stopped: enough failures");
        } else if given.is_none() {
            tally.demand(self.due);
        }
        tally.print_answers();
        println!(
            "{}: {} passed, {} failed, {} answers compared, {:.1} s",
            self.name,
            tally.passed,
            tally.failed,
            tally.calls(),
            started.elapsed().as_secs_f64()
        );
        (tally.passed, tally.failed)
    }
}

/// All parts, in the order in which they are compared.
pub fn parts() -> Vec<Part> {
    vec![
        part("texts", "damaged model texts, every call", (1_000_000, 20_000), texts::DUE, texts::damaged),
        part("values", "lines with other values, every call", (2_000_000, 12_000), texts::VALUES_DUE, texts::other_values),
        part("near", "texts that differ from a right one in a byte", (0, texts::PLACES), &[], texts::near),
        part("inputs", "inputs of the size program", (3_000_000, 20_000), texts::INPUTS_DUE, texts::inputs),
        part("lists", "lists word for word, files byte for byte", (4_000_000, 2_400), lists::DUE, lists::lists),
        part("runs", "runs and steps", (5_000_000, 6_000), runs::DUE, runs::runs),
        part("assignments", "assignments", (6_000_000, 6_000), assignments::DUE, assignments::assignments),
        part("labels", "texts that differ in labels alone, every call", (10_000_000, 1_500), labels::DUE, labels::labels),
        part("pairs", "two texts composed, every call", (11_000_000, 20_000), pairs::DUE, pairs::pairs),
        part("joint", "every step of small products against their parts", (12_000_000, 1_200), joint::DUE, joint::joint),
        part("outputs", "solvers' outputs, right and damaged", (8_000_000, 30_000), outputs::DUE, outputs::outputs),
        part(
            "near_outputs",
            "outputs that differ from a worked one in a byte",
            (0, outputs::PLACES),
            outputs::DUE,
            outputs::near,
        ),
        part("many", "outputs of many variables", (9_000_000, 320), windows::DUE, windows::many),
        part("fixed", "worked cases", (0, 0), &[], fixed::fixed),
        part("windows", "outputs of many variables and long ones, worked", (0, 0), &[], windows::windows),
        part("shipped", "models in the repository", (0, 0), &[], shipped::shipped),
        part("largest", "models at every limit", (0, 0), &[], largest::largest),
        part("stack", "stack use", (0, 0), &[], stack::stack),
    ]
}
