//! How far a search with a solver is, said while it goes on: on a terminal in one line that is written anew, else in lines that stay.
//! It is a courtesy: no answer fails with it.

use std::io::Write;
use std::time::{Duration, Instant};

/// A line on a terminal is written anew after so long, or a bit earlier if it says another bound.
const USUAL: Duration = Duration::from_secs(1);
const EARLIER: Duration = Duration::from_millis(100);
/// As much of a solver's name is shown in the line on a terminal, in characters.
const NAME: usize = 40;

pub struct Progress<'a> {
    log: &'a mut dyn Write,
    terminal: bool,
    /// The solver, cut to fit a line.
    name: String,
    /// The greatest bound; none if one bound alone is asked about.
    last: Option<usize>,
    start: Instant,
    /// When the latest bound was decided.
    decided: Instant,
    shown: Option<Shown>,
}

/// The line on the terminal.
struct Shown {
    when: Instant,
    bound: usize,
    width: usize,
}

impl<'a> Progress<'a> {
    pub fn new(log: &'a mut dyn Write, terminal: bool, solver: &str, last: Option<usize>) -> Progress<'a> {
        let name = solver.chars().take(NAME).map(|letter| if letter.is_control() { ' ' } else { letter }).collect();
        let start = Instant::now();
        Progress { log, terminal, name, last, start, decided: start, shown: None }
    }

    /// Says, on a terminal, which bound is being solved.
    pub fn solving(&mut self, bound: usize) {
        let due = self.shown.as_ref().map_or(true, |shown| {
            let since = shown.when.elapsed();
            since >= USUAL || (since >= EARLIER && shown.bound != bound)
        });
        if self.terminal && due {
            self.show(bound);
        }
    }

    fn show(&mut self, bound: usize) {
        let of = self.last.map_or(String::new(), |last| format!(" of {}", last));
        let line = format!("{}: bound {}{}, {} s", self.name, bound, of, self.start.elapsed().as_secs());
        let width = line.chars().count();
        let blank = self.shown.as_ref().map_or(0, |shown| shown.width.saturating_sub(width));
        let _ = write!(self.log, "\r{}{}", line, " ".repeat(blank));
        let _ = self.log.flush();
        self.shown = Some(Shown { when: Instant::now(), bound, width: width + blank });
    }

    /// Writes a line that stays, but not on a terminal.
    pub fn line(&mut self, text: &str) {
        if !self.terminal {
            let _ = writeln!(self.log, "{}", text);
        }
    }

    /// Writes such a line on a bound that is decided, with the time since the one before.
    pub fn decided(&mut self, bound: usize, what: &str) {
        let time = self.decided.elapsed();
        self.line(&format!("bound {}: {}, {:.2} s", bound, what, time.as_secs_f64()));
        self.decided = Instant::now();
    }
}

impl Drop for Progress<'_> {
    /// Clears the line on the terminal.
    fn drop(&mut self) {
        if let Some(shown) = &self.shown {
            let _ = write!(self.log, "\r{}\r", " ".repeat(shown.width));
            let _ = self.log.flush();
        }
    }
}

#[cfg(test)]
mod tests {
    use super::Progress;
    use std::thread::sleep;
    use std::time::Duration;

    fn written(terminal: bool, last: Option<usize>, steps: impl Fn(&mut Progress)) -> String {
        let mut log = Vec::new();
        steps(&mut Progress::new(&mut log, terminal, "solver\n-q", last));
        String::from_utf8(log).unwrap()
    }

    #[test]
    fn a_line_on_a_terminal_is_written_anew_and_cleared() {
        let text = written(true, Some(64), |progress| {
            progress.line("bounds 1 to 64");
            progress.decided(9, "satisfiable");
            progress.solving(10);
            // neither later nor another
            progress.solving(10);
            sleep(Duration::from_millis(110));
            progress.solving(10);
            progress.solving(8);
        });
        let (long, short) = ("solver -q: bound 10 of 64, 0 s", "solver -q: bound 8 of 64, 0 s");
        assert_eq!(text, format!("\r{}\r{} \r{}\r", long, short, " ".repeat(long.len())));
        assert_eq!(written(true, None, |_| {}), "");
    }

    #[test]
    fn lines_elsewhere_stay() {
        let text = written(false, None, |progress| {
            progress.solving(1);
            progress.line("bounds 1 to 2");
            sleep(Duration::from_millis(20));
            progress.decided(1, "unsatisfiable");
            progress.decided(2, "satisfiable");
        });
        let lines: Vec<&str> = text.lines().collect();
        assert_eq!((lines.len(), lines[0]), (3, "bounds 1 to 2"));
        let times = [(1, "bound 1: unsatisfiable, "), (2, "bound 2: satisfiable, ")].map(|(line, beginning)| {
            let time = lines[line].strip_prefix(beginning).and_then(|rest| rest.strip_suffix(" s")).unwrap();
            assert_eq!(time.find('.'), Some(time.len() - 3), "{}", text);
            time.parse::<f64>().unwrap()
        });
        // each time is that since the line before
        assert!(times[0] >= 0.02 && times[1] < times[0], "{}", text);
    }
}
