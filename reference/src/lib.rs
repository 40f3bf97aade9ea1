//! Independent reference of the translator "timed automaton with counters to
//! clause list". It was written from the document alone and shares no code and
//! no tables with the proved crates; it exists so that their outputs can be
//! compared with those of a second, plainly written program.
//!
//! | module | concern |
//! |---|---|
//! | [`model`] | the record, its limits, well-formedness, ceiling and block lengths |
//! | [`state`] | a state, the initial state, which numbers lie in their groups |
//! | [`step`] | delay and edge steps, the step call, the walker |
//! | [`text`] | reader and writer of the model text, the bound line |
//! | [`compose`] | two models as one |
//! | [`numbering`] | which solver variable stands for what |
//! | [`list`] | the clause list, its totals, its emission |
//! | [`dimacs`] | the list's DIMACS file, written to a lent buffer |
//! | [`assign`] | assignment to run and run to assignment |
//! | [`output`] | what a solver prints, read to an assignment |
//! | [`refutation`] | lemmas with hints that refute a list |
//! | [`search`] | shortest run, number of runs, all runs, by walking states |
//! | [`solve`] | all satisfying assignments of a small list, by backtracking |
//! | [`size`] | the size program |
//! | [`cnf`] | the cnf program, which prints the DIMACS file |
//! | [`flat`] | records as plain bytes, to carry malformed ones between programs |
//! | [`subject`] | models with names and texts, from files too |
//! | [`gen`] | deterministic generator of test cases |
//! | [`refusal`] | the refusal numbers |

pub mod assign;
pub mod cnf;
pub mod compose;
pub mod dimacs;
pub mod flat;
pub mod gen;
pub mod list;
pub mod model;
pub mod numbering;
pub mod output;
pub mod refusal;
pub mod refutation;
pub mod search;
pub mod size;
pub mod solve;
pub mod state;
pub mod step;
pub mod subject;
pub mod text;
