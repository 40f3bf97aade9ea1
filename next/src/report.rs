//! What a command ends with: an answer, for people or as JSON, or a reason why there is none.

use std::io::{self, Write};

use crate::explain;
use crate::json::{Fields, Value};

/// The exit statuses; help.txt says what each means.
pub mod status {
    pub const DONE: u8 = 0;
    pub const USAGE: u8 = 1;
    pub const REFUSED: u8 = 2;
    pub const NO_SOLVER: u8 = 3;
    pub const WRONG_ANSWER: u8 = 4;
    pub const FILE: u8 = 5;
    pub const UNDECIDED: u8 = 7;
    pub const RUN: u8 = 10;
    pub const NO_RUN: u8 = 20;
}

/// An answer: exit status, the text for people, and the fields of the JSON object, in which the same is said.
pub struct Report {
    pub status: u8,
    pub text: String,
    pub fields: Fields,
}

/// An ending before the answer: an exit status and what to say on standard error; of a refusal its number and place too.
#[derive(Clone, Debug, PartialEq, Eq)]
pub struct Stop {
    pub status: u8,
    pub message: String,
    pub refusal: Option<(u8, usize)>,
}

impl Stop {
    pub fn new(status: u8, message: String) -> Stop {
        Stop { status, message, refusal: None }
    }

    pub fn refused(number: u8, place: usize, message: String) -> Stop {
        Stop { status: status::REFUSED, message, refusal: Some((number, place)) }
    }
}

impl From<io::Error> for Stop {
    fn from(error: io::Error) -> Stop {
        Stop::new(status::FILE, format!("the output cannot be written: {}", error))
    }
}

impl Report {
    /// Writes the answer, and returns the exit status.
    pub fn write(&self, command: &str, json: bool, out: &mut dyn Write) -> Result<u8, Stop> {
        if json {
            write_object(command, self.status, self.fields.clone(), out)?;
        } else {
            out.write_all(self.text.as_bytes())?;
        }
        Ok(self.status)
    }
}

/// Writes an ending before the answer as JSON. A refusal that has no place in a text, a run or an assignment has none there.
pub fn write_stop(command: &str, stop: &Stop, out: &mut dyn Write) -> io::Result<()> {
    let number = stop.refusal.map(|(number, _)| number);
    let place = stop.refusal.and_then(|(number, place)| explain::place_name(number).map(|_| place));
    let error = vec![("message", stop.message.as_str().into()), ("number", number.into()), ("place", place.into())];
    write_object(command, stop.status, vec![("error", error.into())], out)
}

fn write_object(command: &str, status: u8, fields: Fields, out: &mut dyn Write) -> io::Result<()> {
    let mut object: Fields = vec![("command", command.into()), ("status", status.into())];
    object.extend(fields);
    writeln!(out, "{}", Value::Object(object))
}

#[cfg(test)]
mod tests {
    use super::{status, write_stop, Report, Stop};

    fn written(write: impl Fn(&mut Vec<u8>)) -> String {
        let mut out = Vec::new();
        write(&mut out);
        String::from_utf8(out).unwrap()
    }

    #[test]
    fn an_answer_is_written_as_text_or_as_an_object() {
        let report = Report { status: 20, text: "no run\n".to_string(), fields: vec![("verdict", "no run".into())] };
        assert_eq!(written(|out| assert_eq!(report.write("check", false, out), Ok(20))), "no run\n");
        let object = "{\"command\": \"check\", \"status\": 20, \"verdict\": \"no run\"}\n";
        assert_eq!(written(|out| assert_eq!(report.write("check", true, out), Ok(20))), object);
    }

    #[test]
    fn an_ending_before_the_answer_has_its_number_and_place() {
        let stop = Stop::refused(4, 21, "m: refusal 4".to_string());
        let error = "{\"message\": \"m: refusal 4\", \"number\": 4, \"place\": 21}";
        let object = format!("{{\"command\": \"walk\", \"status\": 2, \"error\": {}}}\n", error);
        assert_eq!(written(|out| write_stop("walk", &stop, out).unwrap()), object);
        let stop = Stop::refused(21, 0, "m: refusal 21".to_string());
        assert!(written(|out| write_stop("walk", &stop, out).unwrap()).contains("\"number\": 21, \"place\": null"));
        let stop = Stop::new(status::FILE, "m cannot be read".to_string());
        assert!(written(|out| write_stop("walk", &stop, out).unwrap()).contains("\"number\": null, \"place\": null"));
    }
}
