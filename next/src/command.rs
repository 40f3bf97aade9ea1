//! What each command does.

use std::io::{self, Write};

use crate::args::{Command, Files, Line, Question, HELP};
use crate::json::Fields;
use crate::library::Sizes;
use crate::model::Model;
use crate::report::{status, Report, Stop};
use crate::subject::Subject;
use crate::{check, convert, dot, explain, reach, trace_json, variables, version, walk};

/// Stops if a call with this model was refused.
pub fn accepted(model: &Model, number: u8, place: usize) -> Result<(), Stop> {
    match number {
        0 => Ok(()),
        _ => Err(Stop::refused(number, place, model.refusal(number, place))),
    }
}

/// The totals of the list for a bound; stops with 21 if it is too great.
pub fn sizes(model: &Model, bound: usize) -> Result<Sizes, Stop> {
    let sizes = model.counts(bound);
    accepted(model, sizes.number, sizes.line)?;
    Ok(sizes)
}

/// The clause list for a bound as the library writes it, in a buffer of the size that the library names.
pub fn file(model: &Model, bound: usize) -> Result<Vec<u8>, Stop> {
    let mut file = vec![0; model.dimacs(bound, &mut []).bytes];
    let answer = model.dimacs(bound, &mut file);
    accepted(model, answer.number, answer.line)?;
    Ok(file)
}

pub fn steps(count: usize) -> String {
    format!("{} step{}", count, if count == 1 { "" } else { "s" })
}

/// Carries out a command; the answer goes to `out`, progress to `log`. Returns the exit status.
pub fn run(line: &Line, out: &mut dyn Write, log: &mut dyn Write) -> Result<u8, Stop> {
    let report = match &line.command {
        Command::Help => done(HELP.to_string()),
        Command::Version => done(version::text()),
        Command::Explain { number, files } => explained(*number, files.as_ref())?,
        Command::Ask { files, question } => {
            let subject = Subject::open(files)?;
            let mut report = ask(&subject, question, log)?;
            report.fields.insert(0, ("model", trace_json::model(&subject)));
            report
        }
    };
    report.write(&line.name, line.json, out)
}

fn done(text: String) -> Report {
    Report { status: status::DONE, text, fields: Vec::new() }
}

fn ask(subject: &Subject, question: &Question, log: &mut dyn Write) -> Result<Report, Stop> {
    let mut silence = io::sink();
    match question {
        Question::Check(how) => check::check(subject, how, if how.quiet { &mut silence } else { log }),
        Question::Reach(how) => reach::reach(subject, how, if how.quiet { &mut silence } else { log }),
        Question::Walk(run) => walk::walk(subject, run),
        Question::Size(bound) => size(subject, *bound),
        Question::Dimacs(bound) => Ok(done(String::from_utf8_lossy(&file(&subject.model, *bound)?).into_owned())),
        Question::Decode(bound, output) => convert::decode(subject, *bound, output),
        Question::Encode(run) => convert::encode(subject, run),
        Question::Variables(bound, numbers) => variables::explained(subject, *bound, numbers),
        Question::Dot(run) => dot::dot(subject, run),
    }
}

fn size(subject: &Subject, bound: usize) -> Result<Report, Stop> {
    let (sizes, shape) = (sizes(&subject.model, bound)?, subject.shape());
    let numbers = [
        ("variables", sizes.variables),
        ("clauses", sizes.clauses),
        ("words", sizes.words),
        ("ceiling", shape.ceiling),
        ("state", shape.state),
        ("choices", shape.choices),
    ];
    let text = numbers.iter().map(|(name, number)| format!("{}={}\n", name, number)).collect();
    let mut fields: Fields = vec![("bound", bound.into())];
    fields.extend(numbers.iter().map(|(name, number)| (*name, (*number).into())));
    Ok(Report { status: status::DONE, text, fields })
}

fn explained(number: u8, files: Option<&Files>) -> Result<Report, Stop> {
    let sentence =
        explain::sentence(number).ok_or_else(|| Stop::new(status::USAGE, format!("no refusal has the number {}", number)))?;
    let model = files.map(Model::read).transpose().map_err(|message| Stop::new(status::FILE, message))?;
    let mut text = format!("refusal {}: {}\n", number, sentence);
    let mut fields: Fields = vec![("number", number.into()), ("sentence", sentence.into())];
    let reading = model.as_ref().map(|model| {
        let (said, fields) = read(model);
        text.push_str(&format!("{}\n", said));
        fields
    });
    fields.push(("reading", reading.into()));
    Ok(Report { status: status::DONE, text, fields })
}

/// Whether a model is accepted, in words and as JSON.
fn read(model: &Model) -> (String, Fields) {
    let (number, line) = model.accepted();
    let said = match (number, model) {
        (0, Model::One(_)) => format!("{}: the text is accepted", model.name()),
        (0, Model::Two(..)) => format!("{}: both texts are accepted, and they compose", model.name()),
        _ => model.refusal(number, line),
    };
    let told = |number: usize| Some(number).filter(|number| *number > 0);
    let fields = vec![
        ("files", trace_json::files(model)),
        ("accepted", (number == 0).into()),
        ("number", told(usize::from(number)).into()),
        ("line", told(line).into()),
        ("message", said.as_str().into()),
    ];
    (said, fields)
}
