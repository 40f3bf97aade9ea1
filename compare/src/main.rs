//! Compares the calls of the proved library, reached through its C boundary, with the independent
//! reference program, on generated inputs and on worked cases.

mod assignments;
mod calls;
mod expected;
mod fixed;
mod joint;
mod labels;
mod largest;
mod lent;
mod lists;
mod nulls;
mod outputs;
mod pair_calls;
mod pair_fixed;
mod pairs;
mod part;
mod runs;
mod shipped;
mod show;
mod stack;
mod tally;
mod texts;
mod values;
mod windows;

use std::process::ExitCode;

use part::{parts, Part, Seeds};

const HELP: &str = "\
The calls of the proved library against the reference program.

compare all               every part
compare PART              one part, with its own seeds
compare PART FIRST COUNT  one part, with COUNT seeds from FIRST on; 1 makes a single case again
compare reduced COUNT     the worked cases, and every part with seeds, at most COUNT of them

Each part prints its seeds, how often each call answered with each refusal number, and how long it took.
With its own seeds a part also demands that each number it is due to meet was met at least 50 times.
The last line says how many cases passed and how many failed.

PART is one of:
";

const NOT_MET: &str = "\
refusal 20 cannot be met: these calls read a text, and a text that is read gives a well-formed record";

fn main() -> ExitCode {
    let arguments: Vec<String> = std::env::args().skip(1).collect();
    let words: Vec<&str> = arguments.iter().map(String::as_str).collect();
    match perform(&words) {
        Some(true) => ExitCode::SUCCESS,
        Some(false) => ExitCode::FAILURE,
        None => {
            print_help();
            ExitCode::from(2)
        }
    }
}

/// Does what the arguments say; tells whether all went well, or nothing if they say nothing.
fn perform(words: &[&str]) -> Option<bool> {
    match *words {
        ["all"] => {
            println!("{NOT_MET}");
            Some(compare(parts().iter().map(|part| part.compare(None))))
        }
        ["reduced", count] => Some(reduced(count.parse().ok()?)),
        [stack::ON_STACK, kib] => Some(stack::on_stack(kib.parse().ok()?)),
        [name] => one(name, None),
        [name, first, count] => {
            let (first, count) = (first.parse().ok()?, count.parse().ok()?);
            one(name, Some(Seeds { first, count }))
        }
        _ => None,
    }
}

/// The worked cases, and every part with seeds, at most so many of them.
fn reduced(count: u64) -> bool {
    let parts = parts();
    let reduced = |part: &&Part| part.seeds.count > 0 || part.name == "fixed";
    let cases = parts.iter().filter(reduced);
    compare(cases.map(|part| part.compare(Some(part.at_most(count)))))
}

/// One part, if there is one of that name.
fn one(name: &str, seeds: Option<Seeds>) -> Option<bool> {
    let part = parts().into_iter().find(|part| part.name == name)?;
    Some(compare(std::iter::once(part.compare(seeds))))
}

/// Sums up the cases of some parts that passed and that failed.
fn compare(parts: impl Iterator<Item = (usize, usize)>) -> bool {
    let (passed, failed) = parts.fold((0, 0), |sum, part| (sum.0 + part.0, sum.1 + part.1));
    println!("{passed} passed, {failed} failed");
    failed == 0
}

fn print_help() {
    print!("{HELP}");
    for part in parts() {
        println!("  {:<12} {}", part.name, part.about);
    }
}
