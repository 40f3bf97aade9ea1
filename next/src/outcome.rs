//! What `check` says of a search: its text and its fields.

use std::time::Duration;

use crate::args::{Bounds, Check};
use crate::command::steps;
use crate::json::Fields;
use crate::proving::Checked;
use crate::report::{status, Report};
use crate::search::Found;
use crate::subject::Subject;
use crate::{trace, trace_json, walk};

pub struct Outcome<'a> {
    pub how: &'a Check,
    /// The solver that was asked; none if the empty run has decided all.
    pub solver: Option<&'a str>,
    pub found: Found,
    /// What became of a refutation, if one was due.
    pub checked: Option<Checked>,
    pub time: Duration,
}

impl Outcome<'_> {
    /// The answer for a model whose initial state breaks its invariant.
    pub fn no_run_at_all(&self, subject: &Subject) -> Report {
        Report { status: status::NO_RUN, text: walk::no_start(subject), fields: self.fields(subject, "no run at all") }
    }

    pub fn report(&self, subject: &Subject) -> Report {
        let (status, text, verdict) = match (&self.found.run, self.found.unfinished) {
            (Some(run), _) => (status::RUN, self.with_run(subject, run), "run"),
            (None, Some(bound)) => (status::UNDECIDED, self.undecided(bound), "undecided"),
            (None, None) => (status::NO_RUN, self.without_run(), "no run"),
        };
        Report { status, text, fields: self.fields(subject, verdict) }
    }

    fn with_run(&self, subject: &Subject, run: &[u8]) -> String {
        let shorter = match (self.how.bounds, self.found.unfinished, run.len()) {
            (Bounds::Exactly(_), ..) | (Bounds::UpTo(_), _, 0) => String::new(),
            (_, _, 1) => ", and so was the empty run, which does not reach it".to_string(),
            (_, None, _) if self.is_checked() => format!(", which also checked {}: no run is shorter", self.refutation()),
            (_, None, _) => format!("; that no shorter run does is {}", self.unchecked()),
            (_, Some(bound), _) => format!("; whether a shorter run does was not decided {}", self.so_far(bound)),
        };
        let trace = trace::text(subject, run);
        format!("a run of {} reaches the target\n{}(walked by proved code{})\n", steps(run.len()), trace, shorter)
    }

    fn without_run(&self) -> String {
        let said = match self.how.bounds {
            Bounds::Exactly(0) => "no run of exactly 0 steps".to_string(),
            Bounds::Exactly(bound) => format!("no run of exactly {}, so none of fewer", steps(bound)),
            Bounds::UpTo(bound) => format!("no run of at most {}", steps(bound)),
        };
        let why = match self.solver {
            None => "the empty run was walked by proved code".to_string(),
            Some(_) if self.is_checked() => format!("checked by proved code: {}", self.refutation()),
            Some(_) => self.unchecked(),
        };
        format!("{}; longer runs were not looked at\n({})\n", said, why)
    }

    fn undecided(&self, bound: usize) -> String {
        format!("not decided {}\n", self.so_far(bound))
    }

    /// How far a search had come when its time was over, `bound` being solved.
    fn so_far(&self, bound: usize) -> String {
        let seconds = self.how.timeout.unwrap_or(0);
        let none = match self.found.none_up_to {
            None => String::new(),
            Some(0) => "the empty run is none (walked by proved code), ".to_string(),
            Some(none) => format!("no run of at most {} ({}), ", steps(none), self.word()),
        };
        format!("within {} s: {}bound {} was being solved", seconds, none, bound)
    }

    fn is_checked(&self) -> bool {
        matches!(self.checked, Some(Ok(_)))
    }

    fn refutation(&self) -> String {
        format!("a refutation of the list for {}", steps(self.found.none_up_to.unwrap_or(0)))
    }

    /// What is the solver's word alone, and why, if a refutation was due.
    fn unchecked(&self) -> String {
        match &self.checked {
            Some(Err(why)) => format!("{}; a refutation was not checked, because {}", self.word(), why),
            _ => format!("{}, which is not checked", self.word()),
        }
    }

    fn word(&self) -> String {
        format!("the word of {}", self.solver.unwrap_or("no solver"))
    }

    fn fields(&self, subject: &Subject, verdict: &str) -> Fields {
        let (exactly, up_to) = match self.how.bounds {
            Bounds::Exactly(bound) => (Some(bound), None),
            Bounds::UpTo(bound) => (None, Some(bound)),
        };
        // The proved walker has walked the empty run; where no solver was asked, it has decided all.
        let by_walker = 0;
        let run = self.found.run.as_deref();
        let mut fields = vec![
            ("verdict", verdict.into()),
            ("bound", run.map(<[u8]>::len).into()),
            ("exactly", exactly.into()),
            ("up_to", up_to.into()),
            ("none_up_to", self.found.none_up_to.into()),
            ("none_checked", self.found.none_up_to.map(|none| none == by_walker || self.is_checked()).into()),
            ("solver", self.solver.into()),
            ("milliseconds", (self.time.as_millis() as usize).into()),
        ];
        fields.extend(trace_json::found(subject, run));
        fields
    }
}
