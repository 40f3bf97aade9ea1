//! The subcommands. Each reads its arguments and, where it needs a model, the
//! model text on standard input, and prints the library's answer.

use std::fmt;
use std::fs;
use std::io::{self, Read, Write};

use reference::assign::{decode, encode};
use reference::cnf::printed;
use reference::compose::{read_pair, Composed};
use reference::dimacs::{file, write_file};
use reference::gen::cases::{case, KINDS};
use reference::gen::script::{script, Script};
use reference::list::{digest, emit, totals, visit_clauses, Flow};
use reference::model::{variables, well_formed, Model};
use reference::output::{output_to_assignment, SATISFIABLE};
use reference::refusal::Refusal;
use reference::refutation::{self, refute};
use reference::search::{count_runs, shortest, visit_runs, Shortest};
use reference::size::sizes;
use reference::state::State;
use reference::step::{step_call, walk};
use reference::text::{read_whole, write};

/// Shown for a part that stands still.
const STAYS: u8 = 255;
/// Most states that a search keeps.
const STATE_LIMIT: usize = 2_000_000;

const HELP: &str = "\
Reference of the translator from timed automata with counters to clauses.

reference size               bound line and model text in, the size program's five lines out
reference cnf                bound line and model text in, the DIMACS file out, or a refusal's two lines
reference totals BOUND       variables, clauses and words of the list
reference words BOUND        the list, one clause a line, each ended by its 0 word
reference dimacs BOUND       the list as a DIMACS file for a solver
reference dimacs BOUND ROOM  answer of the call that writes the file to ROOM bytes, and the file if accepted
reference digest BOUND       64-bit FNV-1a of the list's words, four bytes each, lowest first
reference emit BOUND ROOM    answer of an emission into ROOM words, and the words if accepted
reference step L V0 V1 V2 V3 X0 X1 X2 X3 BYTE
                             answer of the step call from a state, and the state handed back
reference walk BYTES..       the walker's answer for a run (no bytes: the empty run)
reference encode BYTES..     the walker's answer for a run, and its assignment
reference decode BOUND VALUES..
                             answer for an assignment, and its run
reference output VARIABLES   a solver's output in, the answer of its reading for so many variables, and the assignment
reference refute BOUND FILE  answer of the check of a refutation; FILE has two lines, the words of the lemmas and the hints
reference runs BOUND         every run of BOUND steps, one a line
reference count BOUND        the number of runs of BOUND steps
reference shortest           the length of a shortest run up to 64, or none
reference compose A B        the text of the models in two files composed
reference parts A B BYTE     what a step byte of the composed model is for each part; 255: it stands still
reference gen SEED COUNT KIND
                             COUNT cases, the first from SEED, each next from one more
reference script SEED COUNT  input for a program that answers questions about records
reference answers SEED COUNT what that program must write
reference help               this page

All but size, cnf, output, compose, parts, gen, script, answers and help read a model text on standard input; a text that is
refused gives its number and line. A and B are files with model texts, or - for standard input; a refusal of one or both gives
its number, the text that it is found in (1 or 2, else 0) and the line. BYTES and VALUES are decimal numbers 0 to 255. `count` and `shortest`
say unknown where a search would keep more than two million states, or the number needs more
than 128 bits.

KIND is one of:
";

/// Why a command could not do its work. Refusals are answers, not failures.
pub enum Failure {
    Usage(String),
    Io(io::Error),
}

impl From<io::Error> for Failure {
    fn from(error: io::Error) -> Failure {
        Failure::Io(error)
    }
}

impl fmt::Display for Failure {
    fn fmt(&self, f: &mut fmt::Formatter<'_>) -> fmt::Result {
        match self {
            Failure::Usage(message) => write!(f, "{message}; see reference help"),
            Failure::Io(error) => write!(f, "{error}"),
        }
    }
}

type Done = Result<(), Failure>;

/// Performs the command that the arguments name.
pub fn perform(arguments: &[String], out: &mut dyn Write) -> Done {
    let words: Vec<&str> = arguments.iter().map(String::as_str).collect();
    match words.as_slice() {
        ["size"] => Ok(write!(out, "{}", sizes(&input()?).lines())?),
        ["cnf"] => Ok(write!(out, "{}", printed(&input()?))?),
        ["totals", bound] => show_totals(number(bound)?, out),
        ["words", bound] => show_words(number(bound)?, out),
        ["dimacs", bound] => show_file(number(bound)?, out),
        ["dimacs", bound, room] => show_filing(number(bound)?, number(room)?, out),
        ["digest", bound] => show_digest(number(bound)?, out),
        ["emit", bound, room] => show_emission(number(bound)?, number(room)?, out),
        ["step", numbers @ ..] => show_step(&bytes(numbers)?, out),
        ["walk", run @ ..] => show_walk(&bytes(run)?, out),
        ["encode", run @ ..] => show_encoding(&bytes(run)?, out),
        ["decode", bound, values @ ..] => show_decoding(number(bound)?, &bytes(values)?, out),
        ["output", variables] => show_output(number(variables)?, out),
        ["refute", bound, file] => show_refuting(number(bound)?, file, out),
        ["runs", bound] => show_runs(number(bound)?, out),
        ["count", bound] => show_count(number(bound)?, out),
        ["shortest"] => show_shortest(out),
        ["compose", first, second] => show_composed(first, second, out),
        ["parts", first, second, byte] => show_parts(first, second, number(byte)?, out),
        ["script", seed, count] => show_scripts(number(seed)?, number(count)?, |s| s.input, out),
        ["answers", seed, count] => show_scripts(number(seed)?, number(count)?, |s| s.answers, out),
        ["gen", seed, count, kind] => show_cases(number(seed)?, number(count)?, kind, out),
        ["help"] => show_help(out),
        _ => Err(Failure::Usage("unknown command or wrong number of arguments".to_string())),
    }
}

fn input() -> Result<Vec<u8>, Failure> {
    let mut bytes = Vec::new();
    io::stdin().lock().read_to_end(&mut bytes)?;
    Ok(bytes)
}

fn number<T: std::str::FromStr>(word: &str) -> Result<T, Failure> {
    word.parse().map_err(|_| Failure::Usage(format!("{word} is not a number here")))
}

fn bytes(words: &[&str]) -> Result<Vec<u8>, Failure> {
    words.iter().map(|word| number(word)).collect()
}

/// The model on standard input, or its refusal.
fn model() -> Result<Result<Model, Refusal>, Failure> {
    Ok(read_whole(&input()?))
}

/// Reads the model and shows an answer made from it, or its refusal with line.
fn with_model(out: &mut dyn Write, show: impl FnOnce(&Model, &mut dyn Write) -> Done) -> Done {
    match model()? {
        Ok(model) => show(&model, out),
        Err(refusal) => Ok(writeln!(out, "refusal={}\nline={}", refusal.number, refusal.place)?),
    }
}

/// Shows an accepted answer, or the refusal of a call.
fn with_answer<T>(answer: Result<T, Refusal>, out: &mut dyn Write, show: impl FnOnce(T, &mut dyn Write) -> Done) -> Done {
    match answer {
        Ok(value) => show(value, out),
        Err(refusal) => show_refusal((refusal.number, refusal.place), out),
    }
}

fn show_refusal((number, place): (u32, u32), out: &mut dyn Write) -> Done {
    Ok(writeln!(out, "refusal={number}\nplace={place}")?)
}

fn spaced<T: fmt::Display>(numbers: &[T]) -> String {
    numbers.iter().map(T::to_string).collect::<Vec<String>>().join(" ")
}

fn go_on_if(condition: bool) -> Flow {
    if condition {
        Flow::Continue(())
    } else {
        Flow::Break(())
    }
}

fn show_totals(bound: usize, out: &mut dyn Write) -> Done {
    with_model(out, |model, out| {
        with_answer(totals(model, bound), out, |t, out| {
            Ok(writeln!(out, "variables={}\nclauses={}\nwords={}", t.variables, t.clauses, t.words)?)
        })
    })
}

/// Writes each clause with its 0 on a line of its own.
fn show_words(bound: usize, out: &mut dyn Write) -> Done {
    with_model(out, |model, out| {
        let mut outcome = Ok(());
        let visited = visit_clauses(model, bound, &mut |clause| {
            outcome = writeln!(out, "{} 0", spaced(clause));
            go_on_if(outcome.is_ok())
        });
        outcome?;
        with_answer(visited, out, |_, _| Ok(()))
    })
}

fn show_file(bound: usize, out: &mut dyn Write) -> Done {
    with_model(out, |model, out| with_answer(file(model, bound), out, |file, out| Ok(write!(out, "{file}")?)))
}

fn show_filing(bound: usize, room: usize, out: &mut dyn Write) -> Done {
    with_model(out, |model, out| {
        let mut buffer = vec![0; room];
        let filing = write_file(model, bound, &mut buffer);
        writeln!(out, "refusal={}\nbytes={}", filing.refusal, filing.bytes)?;
        if filing.refusal == 0 {
            out.write_all(&buffer[..filing.bytes])?;
        }
        Ok(())
    })
}

fn show_digest(bound: usize, out: &mut dyn Write) -> Done {
    with_model(out, |model, out| with_answer(digest(model, bound), out, |digest, out| Ok(writeln!(out, "digest={digest:016x}")?)))
}

fn show_emission(bound: usize, room: usize, out: &mut dyn Write) -> Done {
    with_model(out, |model, out| {
        let mut buffer = vec![0; room];
        let emission = emit(model, bound, &mut buffer);
        let t = emission.totals;
        writeln!(out, "refusal={}\nvariables={}\nclauses={}\nwords={}", emission.refusal, t.variables, t.clauses, t.words)?;
        if emission.refusal == 0 {
            writeln!(out, "list={}", spaced(&buffer[..t.words as usize]))?;
        }
        Ok(())
    })
}

fn show_step(numbers: &[u8], out: &mut dyn Write) -> Done {
    let (location, v0, v1, v2, v3, x0, x1, x2, x3, byte) = match *numbers {
        [l, v0, v1, v2, v3, x0, x1, x2, x3, b] => (l, v0, v1, v2, v3, x0, x1, x2, x3, b),
        _ => return Err(Failure::Usage("step takes nine numbers of a state and a byte".to_string())),
    };
    let state = State { location, counters: [v0, v1, v2, v3], clocks: [x0, x1, x2, x3] };
    with_model(out, |model, out| {
        let (refusal, after) = step_call(model, state, byte);
        Ok(writeln!(out, "refusal={refusal}\nstate={}", spaced(&after.numbers()))?)
    })
}

fn show_walk(run: &[u8], out: &mut dyn Write) -> Done {
    with_model(out, |model, out| show_refusal(walk(model, run), out))
}

fn show_encoding(run: &[u8], out: &mut dyn Write) -> Done {
    with_model(out, |model, out| {
        let mut assignment = vec![0; room_for(model, run.len())];
        let answer = encode(model, run, &mut assignment);
        show_refusal(answer, out)?;
        if answer.0 == 0 {
            writeln!(out, "assignment={}", spaced(&assignment))?;
        }
        Ok(())
    })
}

/// N where the model has one, so that the lent buffer just suffices.
fn room_for(model: &Model, bound: usize) -> usize {
    if well_formed(model) && bound <= reference::model::MAX_BOUND {
        variables(model, bound) as usize
    } else {
        0
    }
}

fn show_decoding(bound: usize, assignment: &[u8], out: &mut dyn Write) -> Done {
    with_model(out, |model, out| {
        let mut run = vec![0; bound.min(reference::model::MAX_BOUND)];
        let answer = decode(model, bound, assignment, &mut run);
        show_refusal(answer, out)?;
        if answer.0 == 0 {
            writeln!(out, "run={}", spaced(&run))?;
        }
        Ok(())
    })
}

fn show_output(variables: usize, out: &mut dyn Write) -> Done {
    let mut assignment = vec![0; variables];
    let reading = output_to_assignment(&input()?, &mut assignment);
    writeln!(out, "refusal={}\nline={}\noutcome={}", reading.refusal, reading.line, reading.outcome)?;
    if reading.outcome == SATISFIABLE {
        writeln!(out, "assignment={}", spaced(&assignment))?;
    }
    Ok(())
}

/// Lends the words of the list and behind them the lemmas; none where the list is refused.
fn show_refuting(bound: usize, path: &str, out: &mut dyn Write) -> Done {
    let wrong = || Failure::Usage(format!("{path} has not two lines of numbers"));
    let (lemmas, hints) = refutation::read(&fs::read_to_string(path)?).ok_or_else(wrong)?;
    with_model(out, |model, out| {
        let mut words = vec![0; totals(model, bound).map_or(0, |totals| totals.words as usize)];
        words.extend(lemmas);
        let answer = refute(model, bound, &mut words, &hints);
        Ok(writeln!(out, "refusal={}\nwords={}\noutcome={}", answer.refusal, answer.words, answer.outcome)?)
    })
}

fn show_runs(bound: usize, out: &mut dyn Write) -> Done {
    with_model(out, |model, out| {
        let mut outcome = Ok(());
        let visited = visit_runs(model, bound, &mut |run| {
            outcome = writeln!(out, "{}", spaced(run));
            go_on_if(outcome.is_ok())
        });
        outcome?;
        with_answer(visited, out, |_, _| Ok(()))
    })
}

fn show_count(bound: usize, out: &mut dyn Write) -> Done {
    with_model(out, |model, out| {
        with_answer(count_runs(model, bound, STATE_LIMIT), out, |count, out| match count {
            Some(count) => Ok(writeln!(out, "runs={count}")?),
            None => Ok(writeln!(out, "runs=unknown")?),
        })
    })
}

fn show_shortest(out: &mut dyn Write) -> Done {
    with_model(out, |model, out| {
        with_answer(shortest(model, STATE_LIMIT), out, |found, out| match found {
            Shortest::Steps(steps) => Ok(writeln!(out, "shortest={steps}")?),
            Shortest::None => Ok(writeln!(out, "shortest=none")?),
            Shortest::Unknown => Ok(writeln!(out, "shortest=unknown")?),
        })
    })
}

/// Reads two files, of which each that is named - is standard input, and shows an answer made from both models composed, or the
/// refusal with its text and line.
fn with_pair(first: &str, second: &str, out: &mut dyn Write, show: impl FnOnce(&Composed, &mut dyn Write) -> Done) -> Done {
    let given = if [first, second].contains(&"-") { input()? } else { Vec::new() };
    let text = |path| if path == "-" { Ok(given.clone()) } else { fs::read(path) };
    match read_pair(&text(first)?, &text(second)?) {
        Ok(composed) => show(&composed, out),
        Err(pair) => Ok(writeln!(out, "refusal={}\ntext={}\nline={}", pair.refusal.number, pair.text, pair.refusal.place)?),
    }
}

fn show_composed(first: &str, second: &str, out: &mut dyn Write) -> Done {
    with_pair(first, second, out, |composed, out| {
        with_answer(write(&composed.model), out, |text, out| Ok(write!(out, "{text}")?))
    })
}

fn show_parts(first: &str, second: &str, byte: u8, out: &mut dyn Write) -> Done {
    with_pair(first, second, out, |composed, out| {
        let step = |part: Option<u8>| part.unwrap_or(STAYS);
        let (refusal, parts) = match composed.part_steps(byte) {
            Ok((first, second)) => (0, (step(first), step(second))),
            Err(number) => (number, (0, 0)),
        };
        Ok(writeln!(out, "refusal={refusal}\nfirst={}\nsecond={}", parts.0, parts.1)?)
    })
}

fn show_cases(seed: u64, count: u64, kind: &str, out: &mut dyn Write) -> Done {
    eprintln!("seed={seed} count={count} kind={kind}");
    for index in 0..count {
        let case = match case(kind, seed.wrapping_add(index)) {
            Some(case) => case,
            None => return Err(Failure::Usage(format!("no kind {kind}"))),
        };
        if kind == "model" && index > 0 {
            writeln!(out)?;
        }
        write!(out, "{case}")?;
    }
    Ok(())
}

fn show_scripts(seed: u64, count: u64, part: fn(Script) -> String, out: &mut dyn Write) -> Done {
    for index in 0..count {
        write!(out, "{}", part(script(seed.wrapping_add(index))))?;
    }
    Ok(())
}

fn show_help(out: &mut dyn Write) -> Done {
    write!(out, "{HELP}")?;
    for (kind, content) in KINDS {
        writeln!(out, "  {kind:<11} {content}")?;
    }
    Ok(())
}
