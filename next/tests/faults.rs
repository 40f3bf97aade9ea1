//! The reasons for refused steps, beside the proved step call: a step is allowed exactly if nothing is said to keep it from being taken.
//! So what is read off a text, and how two texts are joined, is held to the proved reader and to the proved composition.

mod common;

use common::generated::{text, Random};
use common::model_text;
use wirdoku_next::fault;
use wirdoku_next::library::State;
use wirdoku_next::model::{Model, Text};
use wirdoku_next::subject::Subject;

const MODELS: [&str; 11] = [
    "a.txt",
    "boot_logger_checkpoint.txt",
    "boot_logger_kicked.txt",
    "boot_logger_lossy.txt",
    "light.txt",
    "logger.txt",
    "logger_b.txt",
    "retry.txt",
    "retry_saved.txt",
    "watchdog.txt",
    "watchdog_patient.txt",
];

/// How reasons begin or end, by their kinds.
const KINDS: [(&str, &str); 6] = [
    ("the edge goes from ", ""),
    ("guard: ", ""),
    ("range: ", " least value is 0"),
    ("range: ", ""),
    ("invariant of ", ""),
    ("byte ", ""),
];

/// What was met.
#[derive(Default)]
struct Met {
    allowed: usize,
    refused: usize,
    kinds: [usize; 6],
}

impl Met {
    /// Compares one step, and returns the state after it if it is allowed.
    fn compare(&mut self, subject: &Subject, state: State, byte: u8) -> Option<State> {
        let answer = subject.model.step(state, byte);
        let reasons = fault::step(&subject.whole, &state, byte);
        let told = format!("{}: byte {} in {:?}: {:?}", subject.model.name(), byte, state, reasons);
        assert!([0, 27, 28].contains(&answer.number), "{}", told);
        assert_eq!(answer.number == 0, reasons.is_empty(), "{}", told);
        for reason in &reasons {
            let kind = KINDS.iter().position(|(first, last)| reason.starts_with(first) && reason.ends_with(last));
            self.kinds[kind.unwrap_or_else(|| panic!("{}", reason))] += 1;
            assert_eq!(answer.number == 27, reason.starts_with("byte "), "{}", told);
        }
        match reasons.is_empty() {
            true => self.allowed += 1,
            false => self.refused += 1,
        }
        (answer.number == 0).then_some(answer.state)
    }

    /// Every byte in every state of some walks, and in some states that no walk need reach.
    fn compare_walks(&mut self, subject: &Subject, random: &mut Random, walks: usize) {
        for _ in 0..walks {
            let mut state = if random.chance(2) { any_state(subject, random) } else { subject.model.initial().state };
            for _ in 0..8 {
                let bytes = (0..=subject.shape().choices as u8).chain([255]);
                let next: Vec<State> = bytes.filter_map(|byte| self.compare(subject, state, byte)).collect();
                state = if next.is_empty() { any_state(subject, random) } else { random.pick(&next) };
            }
        }
    }

    fn assert_enough(&self, allowed: usize, refused: usize) {
        assert!(self.allowed > allowed && self.refused > refused, "{} and {}", self.allowed, self.refused);
        assert!(self.kinds.iter().all(|count| *count > 10), "{:?}", self.kinds);
    }
}

/// Any state of the declared ranges.
fn any_state(subject: &Subject, random: &mut Random) -> State {
    let drawing = &subject.whole.drawing;
    let mut state = State { location: random.below(drawing.locations()) as u8, ..State::default() };
    for (slot, counter) in state.counters.iter_mut().zip(&drawing.counters) {
        *slot = random.below(counter.greatest + 1) as u8;
    }
    for slot in state.clocks.iter_mut().take(drawing.clocks) {
        *slot = random.below(subject.shape().ceiling + 1) as u8;
    }
    state
}

fn named(name: &str, bytes: String) -> Text {
    Text { path: "-".into(), name: name.to_string(), bytes: bytes.into_bytes() }
}

/// The subject of a model; it must be accepted.
fn accepted(model: Model) -> Subject {
    Subject::of(model).unwrap_or_else(|stop| panic!("{}", stop.message))
}

#[test]
fn steps_of_the_shipped_models() {
    let (mut met, mut random) = (Met::default(), Random::new(1));
    for name in MODELS {
        let subject = accepted(Model::One(named(name, model_text(name))));
        met.compare_walks(&subject, &mut random, 20);
    }
    met.assert_enough(5_000, 10_000);
}

#[test]
fn steps_of_the_shipped_models_in_pairs() {
    let (mut met, mut random, mut pairs) = (Met::default(), Random::new(2), 0);
    for first in MODELS {
        for second in MODELS {
            let model = Model::Two(named(first, model_text(first)), named(second, model_text(second)));
            if model.accepted().0 == 0 {
                met.compare_walks(&accepted(model), &mut random, 6);
                pairs += 1;
            }
        }
    }
    assert!(pairs > 20, "{}", pairs);
    met.assert_enough(5_000, 10_000);
}

#[test]
fn steps_of_generated_models() {
    let (mut met, mut random) = (Met::default(), Random::new(3));
    for _ in 0..600 {
        let text = text(&mut random);
        let subject = accepted(Model::One(named(&text.clone(), text)));
        met.compare_walks(&subject, &mut random, 3);
    }
    met.assert_enough(20_000, 20_000);
}

#[test]
fn steps_of_generated_pairs() {
    let (mut met, mut random) = (Met::default(), Random::new(4));
    for _ in 0..300 {
        let (first, second) = (text(&mut random), text(&mut random));
        let subject = accepted(Model::Two(named(&first.clone(), first), named(&second.clone(), second)));
        met.compare_walks(&subject, &mut random, 3);
    }
    met.assert_enough(10_000, 20_000);
}

/// A walk has reasons exactly if it is refused.
#[test]
fn reasons_of_walks() {
    let mut random = Random::new(5);
    let mut met = [0; 5];
    for _ in 0..3_000 {
        let text = text(&mut random);
        let subject = accepted(Model::One(named(&text.clone(), text)));
        let choices = subject.shape().choices;
        let run: Vec<u8> = (0..random.below(4)).map(|_| random.below(choices + 1) as u8).collect();
        let answer = subject.model.walk(&run);
        let reasons = fault::of_walk(&subject, &run, answer);
        assert_eq!(answer.number == 0, reasons.is_empty(), "{:?}: {:?}", answer, reasons);
        assert_eq!(answer.number == 29, !fault::initial(&subject.whole).is_empty(), "{:?}", answer);
        met[usize::from(answer.number).saturating_sub(26)] += 1;
    }
    assert!(met.iter().all(|count| *count > 50), "{:?}", met);
}
