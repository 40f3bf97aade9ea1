//! `walk`: walks a run given by its step bytes, and says why it is none.

use crate::command::{accepted, steps};
use crate::json::Value;
use crate::library::Answer;
use crate::parts::{joint_choice, part_choice, part_steps};
use crate::report::{status, Report, Stop};
use crate::subject::Subject;
use crate::{explain, fault, trace, trace_json};

pub fn walk(subject: &Subject, run: &[u8]) -> Result<Report, Stop> {
    let answer = subject.model.walk(run);
    if !matches!(answer.number, 0 | 27..=30) {
        accepted(&subject.model, answer.number, answer.place)?;
    }
    let mut text = match answer.number {
        0 => format!("this run of {} reaches the target\n", steps(run.len())),
        _ => format!("{}\n", refusal(subject, run, answer)),
    };
    if answer.number != 29 {
        text.push_str(&trace::text(subject, run));
    }
    let (status, verdict) = if answer.number == 0 { (status::RUN, "run") } else { (status::NO_RUN, "no run") };
    let number = Some(answer.number).filter(|number| *number != 0);
    let fields = vec![
        ("verdict", verdict.into()),
        ("number", number.into()),
        ("place", number.and_then(explain::place_name).map(|_| answer.place).into()),
        ("reasons", Value::list(fault::of_walk(subject, run, answer), |reason| reason)),
        ("run", trace_json::bytes(run)),
        ("trace", (answer.number != 29).then(|| trace_json::fields(subject, run)).into()),
    ];
    Ok(Report { status, text, fields })
}

/// What to say of a model whose initial state breaks its invariant, and why it does.
pub fn no_start(subject: &Subject) -> String {
    let mut lines = vec!["no run at all: the initial state breaks its invariant (refusal 29)".to_string()];
    lines.extend(fault::initial(&subject.whole));
    lines.join("\n    ") + "\n"
}

/// What to say of a run that is refused with 27 to 30: the refusal, and below it the refused step and all reasons.
pub fn refusal(subject: &Subject, run: &[u8], answer: Answer) -> String {
    let mut lines = vec![format!("no run into the target: {}", explain::refusal(answer.number, answer.place))];
    if answer.number == 28 {
        lines.push(refused_step(subject, answer.place, run[answer.place - 1]));
    }
    lines.extend(fault::of_walk(subject, run, answer));
    lines.join("\n    ")
}

/// What a refused step would be, since the trace ends before it.
fn refused_step(subject: &Subject, place: usize, byte: u8) -> String {
    let whole = &subject.whole;
    let label = trace::edge(whole.shape.ceiling, byte).map(|edge| whole.drawing.edges[edge].label as u8);
    let choice = match (&subject.parts, part_steps(&subject.model, byte), label) {
        (Some((first, second)), Some(steps), Some(label)) => {
            let own = (part_choice(first, steps.first), part_choice(second, steps.second));
            format!("{}; first: {}; second: {}", joint_choice(whole, byte, label), own.0, own.1)
        }
        _ => trace::labelled(trace::choice(whole, byte), &whole.names, label.unwrap_or(0)),
    };
    format!("step {}, byte {}: {}", place, byte, choice)
}
