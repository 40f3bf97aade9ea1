//! What a solver's answer says. The competitions' form is read by the proved call, from the bytes as the solver prints them.
//! MiniSat's result file has a form of its own, and its reader here is not proved.

use crate::{explain, library};

/// A solver's answer; an assignment has a byte 0 or 1 for each variable, the first for variable 1.
#[derive(Clone, Debug, PartialEq, Eq)]
pub enum Verdict {
    Satisfiable(Vec<u8>),
    Unsatisfiable,
}

/// Why an answer is none.
#[derive(Clone, Debug, PartialEq, Eq)]
pub struct Refused {
    pub reason: String,
    /// Number and line, if the proved call refuses it.
    pub refusal: Option<(u8, usize)>,
}

impl From<String> for Refused {
    fn from(reason: String) -> Refused {
        Refused { reason, refusal: None }
    }
}

/// Reads an output in the competitions' form; one that is refused is told with its number, its sentence and its line.
pub fn competition(output: &[u8], variables: usize) -> Result<Verdict, Refused> {
    let mut assignment = vec![0; variables];
    let told = library::output_to_assignment(output, &mut assignment);
    match told.outcome {
        library::SATISFIABLE => Ok(Verdict::Satisfiable(assignment)),
        library::UNSATISFIABLE => Ok(Verdict::Unsatisfiable),
        _ => {
            let reason = explain::text_refusal(output, told.number, told.line);
            Err(Refused { reason, refusal: Some((told.number, told.line)) })
        }
    }
}

/// Reads MiniSat's result file: `SAT` and a line of literals, or `UNSAT`.
///
/// A variable that it does not name is taken as false: MiniSat leaves out the variables above the greatest one that occurs in a
/// clause, and for those any value will do. Nothing depends on it, since every assignment is tested by the proved conversion
/// afterwards.
pub fn minisat(text: &str, variables: usize) -> Result<Verdict, String> {
    let mut lines = text.lines();
    let verdict = lines.next().ok_or_else(|| "there is no verdict".to_string())?;
    match verdict {
        "SAT" => values(lines, variables).map(Verdict::Satisfiable),
        "UNSAT" if lines.next().is_none() => Ok(Verdict::Unsatisfiable),
        "UNSAT" => Err("something follows `UNSAT`".to_string()),
        other => Err(format!("the verdict is `{}`", other.escape_debug())),
    }
}

/// The assignment that some lines name, the last of their literals being 0.
fn values<'a>(lines: impl Iterator<Item = &'a str>, variables: usize) -> Result<Vec<u8>, String> {
    let mut named: Vec<Option<bool>> = vec![None; variables];
    let mut words = lines.flat_map(str::split_ascii_whitespace);
    loop {
        let word = words.next().ok_or_else(|| "the closing 0 is missing".to_string())?;
        let literal: i32 = word.parse().map_err(|_| format!("`{}` is not a literal", word.escape_debug()))?;
        if literal == 0 {
            break;
        }
        let variable = literal.unsigned_abs() as usize;
        let value = named.get_mut(variable - 1);
        let value = value.ok_or_else(|| format!("variable {} is above the greatest, {}", variable, variables))?;
        if value.replace(literal > 0).is_some() {
            return Err(format!("variable {} is named twice", variable));
        }
    }
    match words.next() {
        None => Ok(named.into_iter().map(|value| u8::from(value == Some(true))).collect()),
        Some(word) => Err(format!("`{}` follows the closing 0", word.escape_debug())),
    }
}

#[cfg(test)]
mod tests {
    use super::{competition, minisat, Verdict};

    fn satisfied<T>(bytes: &[u8]) -> Result<Verdict, T> {
        Ok(Verdict::Satisfiable(bytes.to_vec()))
    }

    #[test]
    fn outputs_are_read_by_the_proved_call() {
        let split = b"c first\ns SATISFIABLE\nv 1\nv -2 3\nc between\nv -4\nv 0\n";
        assert_eq!(competition(split, 4), satisfied(&[1, 0, 1, 0]));
        assert_eq!(competition(b"s SATISFIABLE\nv 0\n", 0), satisfied(&[]));
        assert_eq!(competition(b"s UNSATISFIABLE\nc \n", 3), Ok(Verdict::Unsatisfiable));
    }

    #[test]
    fn refused_outputs_are_told_with_number_and_line() {
        let cases: [(&[u8], u8, usize, &str); 7] = [
            (b"c\ns UNSATISFIABLE\n", 33, 1, "\n    c\n    a comment begins with `c` and a space"),
            (b"s UNKNOWN\n", 33, 1, "\n    s UNKNOWN"),
            (b"s SATISFIABLE\nv 1 -2 0", 33, 2, "\n    v 1 -2 0\n    the line has no LF at its end"),
            (b"s SATISFIABLE\nv 1\nv 3 0\n", 34, 3, "\n    v 3 0"),
            (b"s SATISFIABLE\nv 1 0\n", 35, 2, "\n    v 1 0"),
            (b"s SATISFIABLE\nv 1 -2\n", 35, 3, "\n    (the text ends before this line)"),
            (b"", 35, 1, "\n    (the text ends before this line)"),
        ];
        for (output, number, line, end) in cases {
            let refused = competition(output, 2).unwrap_err();
            assert_eq!(refused.refusal, Some((number, line)));
            let reason = refused.reason;
            let beginning = format!("refusal {}, line {}: ", number, line);
            assert!(reason.starts_with(&beginning) && reason.ends_with(end), "{}", reason);
        }
    }

    #[test]
    fn minisats_file_may_leave_variables_out() {
        assert_eq!(minisat("SAT\n-1 2 0\n", 2), satisfied(&[0, 1]));
        assert_eq!(minisat("SAT\n-1 2 0\n", 3), satisfied(&[0, 1, 0]));
        assert_eq!(minisat("SAT\n1\n-2 0\n", 2), satisfied(&[1, 0]));
        assert_eq!(minisat("SAT\n0\n", 0), satisfied(&[]));
        assert_eq!(minisat("UNSAT\n", 3), Ok(Verdict::Unsatisfiable));
    }

    #[test]
    fn wrong_files_of_minisat_are_refused() {
        let cases = [
            ("", "there is no verdict"),
            ("INDET\n", "the verdict is `INDET`"),
            ("UNSAT\n1 0\n", "something follows `UNSAT`"),
            ("SAT\n1 -2\n", "the closing 0 is missing"),
            ("SAT\n1 3 0\n", "variable 3 is above the greatest, 2"),
            ("SAT\n-3 0\n", "variable 3 is above the greatest, 2"),
            ("SAT\n1 -1 0\n", "variable 1 is named twice"),
            ("SAT\n1 0 2\n", "`2` follows the closing 0"),
            ("SAT\n1 0 0\n", "`0` follows the closing 0"),
            ("SAT\n1 two 0\n", "`two` is not a literal"),
            ("SAT\n1 99999999999 0\n", "`99999999999` is not a literal"),
            ("SAT\n-2147483648 0\n", "variable 2147483648 is above the greatest, 2"),
        ];
        for (text, expected) in cases {
            assert_eq!(minisat(text, 2), Err(expected.to_string()), "{}", text);
        }
    }
}
