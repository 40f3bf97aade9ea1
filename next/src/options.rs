//! The arguments after a command's name, parted into options and places.

use std::ffi::{OsStr, OsString};

use crate::solver::Solver;

/// The arguments after the command's name, sorted.
#[derive(Default)]
pub struct Sorted {
    pub places: Vec<OsString>,
    pub bound: Option<usize>,
    pub up_to: Option<usize>,
    pub solver: Option<Solver>,
    pub timeout: Option<u64>,
    pub states: Option<usize>,
    pub prove: bool,
    pub no_prove: bool,
    pub quiet: bool,
    pub json: bool,
}

/// Parts options from places. An option's value follows it, or stands after `=`.
pub fn sort(arguments: &[OsString], allowed: &[&str]) -> Result<Sorted, String> {
    let mut sorted = Sorted::default();
    let mut rest = arguments.iter();
    while let Some(argument) = rest.next() {
        let text = argument.to_string_lossy();
        if !text.starts_with('-') || text == "-" {
            sorted.places.push(argument.clone());
            continue;
        }
        let (option, value) = match text.split_once('=') {
            Some((option, value)) => (option, Some(value.to_string())),
            None => (text.as_ref(), None),
        };
        if !allowed.contains(&option) {
            return Err(unexpected(argument));
        }
        let mut next = || rest.next().map(|value| value.to_string_lossy().into_owned());
        let value = if is_flag(option) { value } else { value.or_else(&mut next) };
        sorted.take(option, value)?;
    }
    Ok(sorted)
}

fn is_flag(option: &str) -> bool {
    ["--prove", "--no-prove", "--quiet", "--json"].contains(&option)
}

impl Sorted {
    fn take(&mut self, option: &str, value: Option<String>) -> Result<(), String> {
        let repeated = match (option, value) {
            ("--prove", None) => std::mem::replace(&mut self.prove, true),
            ("--no-prove", None) => std::mem::replace(&mut self.no_prove, true),
            ("--quiet", None) => std::mem::replace(&mut self.quiet, true),
            ("--json", None) => std::mem::replace(&mut self.json, true),
            ("--bound", Some(value)) => self.bound.replace(bound(&value)?).is_some(),
            ("--up-to", Some(value)) => self.up_to.replace(bound(&value)?).is_some(),
            ("--solver", Some(value)) => self.solver.replace(Solver::from_value(&value)?).is_some(),
            ("--timeout", Some(value)) => self.timeout.replace(count(&value, "a number of seconds")? as u64).is_some(),
            ("--states", Some(value)) => self.states.replace(count(&value, "a number of states")?).is_some(),
            (_, None) => return Err(format!("{} needs a value", option)),
            (_, Some(_)) => return Err(format!("{} takes no value", option)),
        };
        if repeated {
            return Err(format!("{} is given twice", option));
        }
        Ok(())
    }

    pub fn at_most(&self, places: usize) -> Result<(), String> {
        self.places.get(places).map_or(Ok(()), |place| Err(unexpected(place)))
    }
}

pub fn shown(argument: &OsStr) -> String {
    argument.to_string_lossy().escape_debug().to_string()
}

pub fn unexpected(argument: &OsStr) -> String {
    format!("`{}` is not expected", shown(argument))
}

/// A bound in digits. One that is too great for a number is as good as the greatest: both are refused with 21.
pub fn bound(value: &str) -> Result<usize, String> {
    digits(value).ok_or_else(|| format!("`{}` is not a bound", value.escape_debug()))
}

/// A number of 1 or more, in digits.
fn count(value: &str, what: &str) -> Result<usize, String> {
    digits(value).filter(|number| *number > 0).ok_or_else(|| format!("`{}` is not {}", value.escape_debug(), what))
}

/// A number in digits; one that is too great is the greatest.
pub fn digits(value: &str) -> Option<usize> {
    let is_number = !value.is_empty() && value.bytes().all(|byte| byte.is_ascii_digit());
    is_number.then(|| value.parse().unwrap_or(usize::MAX))
}

/// A byte in digits.
pub fn byte(place: &OsStr, what: &str) -> Result<u8, String> {
    let number = place.to_str().and_then(digits).and_then(|number| u8::try_from(number).ok());
    number.ok_or_else(|| format!("`{}` is not {} (0 to 255)", shown(place), what))
}

/// Whether a place begins as a number does.
pub fn is_number(place: &OsStr) -> bool {
    place.to_string_lossy().starts_with(|first: char| first.is_ascii_digit() || first == '+')
}
