//! The line of a text or of a solver's output that is refused, and what is wrong there.

pub use wirdoku::explain::value_of;
use wirdoku::explain::{self, escaped, line_of};

use crate::faulty;

/// The longest part of a line that is shown, in bytes.
pub const SHOWN: usize = 160;

/// A refusal of a text or of a solver's output: number and sentence, and below them the text's line and what is wrong there. Line 0 is
/// no line.
pub fn text_refusal(text: &[u8], number: u8, line: usize) -> String {
    let mut hints = explain::hints(text, number, line);
    if let Some((bytes, _)) = line_of(text, line) {
        // what is said of a CR stands last
        let place = hints.len() - usize::from(bytes.ends_with(b"\r"));
        hints.splice(place..place, faulty::hints(text, bytes, number));
    }
    explain::refusal_with(text, number, line, &hints)
}

/// Bytes escaped where they cannot be printed, and cut if they are more than some.
pub fn shown(bytes: &[u8], most: usize) -> String {
    let shown: String = bytes.iter().take(most).flat_map(|byte| escaped(*byte)).collect();
    match bytes.len() > most {
        true => format!("{} .. ({} bytes)", shown, bytes.len()),
        false => shown,
    }
}

#[cfg(test)]
mod tests {
    use super::text_refusal;

    #[test]
    fn hints_name_what_was_due() {
        let report = text_refusal(b"locations=2\nstart=0\n", 2, 2);
        assert!(report.ends_with("\n    start=0\n    due here: init="), "{}", report);
        let report = text_refusal(b"locations=2", 2, 1);
        assert!(report.ends_with("\n    due here: locations=\n    the line has no LF at its end"), "{}", report);
        let report = text_refusal(b"locations=2\r\n", 3, 1);
        assert!(report.ends_with("\n    locations=2\\r\n    the line ends with CR LF; lines end with LF alone"), "{}", report);
        assert!(!text_refusal(&[b'x'; 9000], 1, 0).contains('\n'));
        let report = text_refusal(b"s SATISFIABLE\nc\n", 33, 2);
        assert!(report.ends_with("\n    c\n    a comment begins with `c` and a space"), "{}", report);
        let report = text_refusal(b"s SATISFIABLE\nc x", 33, 2);
        assert!(report.ends_with("\n    c x\n    the line has no LF at its end"), "{}", report);
        let report = text_refusal(b"s SATISFIABLE\nv 1 1 0\n", 34, 2);
        assert!(report.ends_with("\n    v 1 1 0"), "{}", report);
    }
}
