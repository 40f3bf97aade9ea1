//! Speed of the proved library beside plain Rust: the same inputs, one process,
//! turns in rounds, medians of processor time. Writes Markdown.
//!
//! Arguments: the folder with the shipped models.

mod calls;
mod clauses;
mod fast;
mod files;
mod input;
mod layout;
mod measure;
mod memory;
mod outputs;
mod plain;
mod table;

use std::path::PathBuf;
use std::process::ExitCode;

use reference::model::MAX_BOUND;
use reference::subject;

fn main() -> ExitCode {
    match run() {
        Ok(()) => ExitCode::SUCCESS,
        Err(cause) => {
            eprintln!("bench: {cause}");
            ExitCode::FAILURE
        }
    }
}

fn run() -> Result<(), String> {
    let folder = std::env::args_os().nth(1).map(PathBuf::from);
    let folder = folder.ok_or("the folder with the models is missing: bench FOLDER")?;
    let shipped = subject::shipped(&folder)?;
    let [greatest, full] = input::at_the_limits()?;
    table::head("At bound 64", &table::COLUMNS);
    for input in [&greatest, &full].into_iter().chain(&shipped) {
        for row in calls::rows(input, MAX_BOUND)? {
            row.print();
        }
    }
    table::head("Growth with the bound", &table::COLUMNS);
    for bound in input::GROWTH {
        calls::emission(&greatest, bound)?.print();
    }
    for bound in input::GROWTH {
        if let Some(row) = calls::search(&full, bound)? {
            row.print();
        }
    }
    table::head("DIMACS files", &table::FILE_COLUMNS);
    for input in [&greatest, &full].into_iter().chain(&shipped) {
        calls::filing(input, MAX_BOUND)?.print();
    }
    for bound in input::GROWTH {
        calls::filing(&greatest, bound)?.print();
    }
    outputs::agree_in_generated()?;
    table::head("Solvers' outputs", &table::OUTPUT_COLUMNS);
    for variables in outputs::VARIABLES {
        outputs::reading(variables)?.print();
    }
    for input in [&greatest, &full].into_iter().chain(&shipped) {
        memory::on_a_small_stack(input)?;
    }
    println!("\nEvery call on a model, on every one above, also ran on a thread with a stack of {} bytes.", memory::STACK);
    Ok(())
}
