//! Rows of the tables.

use crate::measure::Rounds;

pub const COLUMNS: [&str; 12] = [
    "call",
    "model",
    "k",
    "work",
    "library",
    "work a second",
    "plain Rust",
    "reference",
    "plain / library",
    "reference / library",
    "less reading: library, plain",
    "plain / library",
];

pub type Work = Vec<(usize, &'static str)>;

/// The sides of a row in their order. The first two are in every row, the
/// others where a call does more than read the text.
pub const LIBRARY: usize = 0;
pub const REFERENCE: usize = 1;
/// Plain Rust: text read and call done.
pub const PLAIN: usize = 2;
/// Plain Rust on a record that was read before.
pub const ACT: usize = 3;
/// The library's reading of the text alone.
pub const READ: usize = 4;

/// What a call must take beside its reading for the difference to be shown.
const LEAST_SHARE: f64 = 0.5;

pub struct Row {
    pub call: &'static str,
    pub model: String,
    pub bound: Option<usize>,
    /// What is done, in one or two units.
    pub work: Work,
    pub rounds: Rounds,
}

pub const FILE_COLUMNS: [&str; 14] = [
    "model",
    "k",
    "bytes",
    "library",
    "bytes a second",
    "room to spare",
    "bytes a second",
    "plain Rust, for speed",
    "plain Rust, `write!`",
    "speed / library",
    "speed / room to spare",
    "`write!` / library",
    "less reading: library, speed",
    "speed / library",
];

/// A row of the DIMACS files. Its sides: the library with a buffer of the file's
/// length and with room to spare, plain Rust for speed and with `write!`, that for
/// speed on a record that was read before, and the library's reading alone.
pub struct FileRow {
    pub model: String,
    pub bound: usize,
    pub bytes: usize,
    pub rounds: Rounds,
}

impl FileRow {
    pub fn print(&self) {
        let [exact, spare, fast, formatted, act, read] = [0, 1, 2, 3, 4, 5];
        let median = |side: usize| self.rounds.median(|t| t[side]);
        let beside = |one: usize, other: usize| ratio(self.rounds.median(|t| t[one] / t[other]));
        let less_reading = self.rounds.median(|t| t[exact] - t[read]);
        let fields = [
            self.model.clone(),
            self.bound.to_string(),
            grouped(self.bytes),
            time(median(exact)),
            speed(self.bytes, median(exact)),
            time(median(spare)),
            speed(self.bytes, median(spare)),
            time(median(fast)),
            time(median(formatted)),
            beside(fast, exact),
            beside(fast, spare),
            beside(formatted, exact),
            format!("{}, {}", time(less_reading), time(median(act))),
            ratio(self.rounds.median(|t| t[act] / (t[exact] - t[read]))),
        ];
        println!("| {} |", fields.join(" | "));
    }
}

pub const OUTPUT_COLUMNS: [&str; 9] = [
    "variables",
    "bytes",
    "library",
    "bytes a second",
    "plain Rust, for speed",
    "bytes a second",
    "reference",
    "speed / library",
    "reference / library",
];

/// A row of the solvers' outputs. Its sides: the library, plain Rust for speed, the
/// reference program.
pub struct OutputRow {
    pub variables: usize,
    pub bytes: usize,
    pub rounds: Rounds,
}

impl OutputRow {
    pub fn print(&self) {
        let [library, fast, reference] = [0, 1, 2];
        let median = |side: usize| self.rounds.median(|t| t[side]);
        let beside = |side: usize| ratio(self.rounds.median(|t| t[side] / t[library]));
        let fields = [
            grouped(self.variables),
            grouped(self.bytes),
            time(median(library)),
            speed(self.bytes, median(library)),
            time(median(fast)),
            speed(self.bytes, median(fast)),
            time(median(reference)),
            beside(fast),
            beside(reference),
        ];
        println!("| {} |", fields.join(" | "));
    }
}

pub fn head(title: &str, columns: &[&str]) {
    println!("\n### {title}\n");
    println!("| {} |", columns.join(" | "));
    println!("|{}", "---|".repeat(columns.len()));
}

impl Row {
    pub fn print(&self) {
        let bound = self.bound.map(|bound| bound.to_string());
        let library = self.rounds.median(|t| t[LIBRARY]);
        let mut fields = vec![
            self.call.to_string(),
            self.model.clone(),
            bound.unwrap_or_default(),
            self.listed(|amount, unit| format!("{} {unit}", grouped(amount))),
            time(library),
            self.listed(|amount, _| speed(amount, library)),
        ];
        let reference = time(self.rounds.median(|t| t[REFERENCE]));
        let beside = ratio(self.rounds.median(|t| t[REFERENCE] / t[LIBRARY]));
        if self.rounds.sides() > READ {
            let plain = time(self.rounds.median(|t| t[PLAIN]));
            let whole = ratio(self.rounds.median(|t| t[PLAIN] / t[LIBRARY]));
            fields.extend([plain, reference, whole, beside]);
            fields.extend(self.less_reading());
        } else {
            let none = String::new;
            fields.extend([none(), reference, none(), beside, none(), none()]);
        }
        println!("| {} |", fields.join(" | "));
    }

    /// The times without reading and their ratio. The library's is a difference
    /// of two times, so it is shown only where it is large enough beside them.
    fn less_reading(&self) -> [String; 2] {
        let act = self.rounds.median(|t| t[LIBRARY] - t[READ]);
        if act < LEAST_SHARE * self.rounds.median(|t| t[READ]) {
            return ["-".to_string(), "-".to_string()];
        }
        let plain = self.rounds.median(|t| t[ACT]);
        let ratios = self.rounds.median(|t| t[ACT] / (t[LIBRARY] - t[READ]));
        [format!("{}, {}", time(act), time(plain)), ratio(ratios)]
    }

    /// The work in each unit, written by `form`.
    fn listed(&self, form: impl Fn(usize, &str) -> String) -> String {
        let work = self.work.iter().map(|(amount, unit)| form(*amount, unit));
        work.collect::<Vec<String>>().join(", ")
    }
}

/// Above 1 the library is the faster one.
fn ratio(ratio: f64) -> String {
    format!("{ratio:.2}")
}

fn time(nanoseconds: f64) -> String {
    if nanoseconds >= 1e6 {
        format!("{:.2} ms", nanoseconds / 1e6)
    } else if nanoseconds >= 1e3 {
        format!("{:.2} µs", nanoseconds / 1e3)
    } else {
        format!("{nanoseconds:.0} ns")
    }
}

fn speed(amount: usize, nanoseconds: f64) -> String {
    let second = amount as f64 / nanoseconds * 1e9;
    if second >= 1e7 {
        format!("{:.0} M", second / 1e6)
    } else {
        grouped(second as usize)
    }
}

/// A number with commas between thousands.
fn grouped(number: usize) -> String {
    let digits = number.to_string();
    let mut text = String::new();
    for (index, digit) in digits.chars().enumerate() {
        if index > 0 && (digits.len() - index) % 3 == 0 {
            text.push(',');
        }
        text.push(digit);
    }
    text
}
