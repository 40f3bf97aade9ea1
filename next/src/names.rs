//! Names for the numbers of a model, from an optional file beside it (next/docs/NAMES.md). They are shown in place of numbers or beside them
//! and change no answer.

use std::io;
use std::path::{Path, PathBuf};

use crate::drawing::{Atom, Drawing, Term};
use crate::input;
use crate::items;
use crate::refused::{shown, SHOWN};
use crate::report::{status, Stop};

/// A file of more bytes than this is refused.
const LONGEST_FILE: u64 = 65_536;
/// The longest name, in characters.
const LONGEST_NAME: usize = 24;
/// The labels other than 0, which means private.
const LABELS: usize = 15;

#[derive(Clone, Copy, Debug, PartialEq, Eq)]
enum Kind {
    Location,
    Clock,
    Counter,
    Edge,
    Label,
}

/// What has a name; a number without one is shown as it stands in the text.
#[derive(Clone, Debug, Default, PartialEq, Eq)]
pub struct Names {
    locations: Vec<Option<String>>,
    clocks: Vec<Option<String>>,
    counters: Vec<Option<String>>,
    edges: Vec<Option<String>>,
    labels: Vec<Option<String>>,
}

impl Names {
    /// No name for anything that a model declares.
    pub fn none(drawing: &Drawing) -> Names {
        Names {
            locations: vec![None; drawing.locations()],
            clocks: vec![None; drawing.clocks],
            counters: vec![None; drawing.counters.len()],
            edges: vec![None; drawing.edges.len()],
            labels: vec![None; LABELS + 1],
        }
    }

    /// The names in the file beside a model file, if there is one; stops if it cannot be read or is refused.
    pub fn beside(model: &Path, drawing: &Drawing) -> Result<Names, Stop> {
        let path = match path_beside(model) {
            Some(path) => path,
            None => return Ok(Names::none(drawing)),
        };
        match input::read(&path, LONGEST_FILE) {
            Err(error) if error.kind() == io::ErrorKind::NotFound => Ok(Names::none(drawing)),
            Err(error) => Err(Stop::new(status::FILE, format!("{} cannot be read: {}", path.display(), error))),
            Ok(bytes) => {
                Names::of(&bytes, drawing).map_err(|reason| Stop::new(status::REFUSED, format!("{}, {}", path.display(), reason)))
            }
        }
    }

    /// The names that some lines give; or the number of the first line that is refused, why, and the line itself.
    pub fn of(bytes: &[u8], drawing: &Drawing) -> Result<Names, String> {
        if bytes.len() as u64 > LONGEST_FILE {
            return Err(format!("which has more than {} bytes, is refused", LONGEST_FILE));
        }
        let mut names = Names::none(drawing);
        for (place, line) in bytes.split(|byte| *byte == b'\n').enumerate() {
            let taken = names.take(&String::from_utf8_lossy(line));
            taken.map_err(|reason| format!("line {}: {}\n    {}", place + 1, reason, shown(line, SHOWN)))?;
        }
        Ok(names)
    }

    /// Takes a line; one that is empty or begins with # says nothing.
    fn take(&mut self, line: &str) -> Result<(), String> {
        if line.ends_with('\r') {
            return Err("the line ends with CR LF; lines end with LF alone".to_string());
        }
        if line.is_empty() || line.starts_with('#') {
            return Ok(());
        }
        let words: Vec<&str> = line.split(' ').collect();
        let (kind, number, name) = match words[..] {
            [kind, number, name] => (kind, number, name),
            _ => return Err("a line is a kind, a number and a name, one space apart".to_string()),
        };
        let kind = Kind::named(kind).ok_or("the kind is none of location, clock, counter, edge, label")?;
        let number = items::number(number).ok_or("the number is not 1 to 3 digits without a leading zero")?;
        if !is_name(name) {
            return Err(format!("a name is 1 to {} letters, digits, `_`, `-` or `.`, a letter first", LONGEST_NAME));
        }
        let slots = self.slots(kind);
        let repeated = slots.iter().any(|other| other.as_deref() == Some(name));
        match slots.get_mut(number) {
            None if kind == Kind::Label => Err(format!("{} is above {}, the greatest label", number, LABELS)),
            None => Err(format!("the model has no {} {}", kind.word(), number)),
            Some(_) if kind == Kind::Label && number == 0 => Err("label 0 means private and has no name".to_string()),
            Some(Some(_)) => Err(format!("{} {} has a name already", kind.word(), number)),
            Some(None) if repeated => Err(format!("another {} has this name", kind.word())),
            Some(slot) => {
                *slot = Some(name.to_string());
                Ok(())
            }
        }
    }

    fn slots(&mut self, kind: Kind) -> &mut Vec<Option<String>> {
        match kind {
            Kind::Location => &mut self.locations,
            Kind::Clock => &mut self.clocks,
            Kind::Counter => &mut self.counters,
            Kind::Edge => &mut self.edges,
            Kind::Label => &mut self.labels,
        }
    }

    /// Names for two models composed: a location is a pair, a clock or a counter has its model's place before it.
    pub fn joined(first: &Names, second: &Names) -> Names {
        let pairs =
            |i| (0..second.locations.len()).map(move |j| Some(format!("({}, {})", first.location(i), second.location(j))));
        let parts = [("first", first), ("second", second)];
        let placed = |of: fn(&Names) -> usize, shown: fn(&Names, usize) -> String| -> Vec<Option<String>> {
            let own = |(part, names): (&str, &Names)| -> Vec<Option<String>> {
                (0..of(names)).map(|index| Some(format!("{}.{}", part, shown(names, index)))).collect()
            };
            parts.iter().flat_map(|part| own(*part)).collect()
        };
        let either = |label: usize| first.labels[label].clone().or_else(|| second.labels[label].clone());
        Names {
            locations: (0..first.locations.len()).flat_map(pairs).collect(),
            clocks: placed(|names| names.clocks.len(), Names::clock),
            counters: placed(|names| names.counters.len(), Names::counter),
            edges: Vec::new(),
            labels: (0..=LABELS).map(either).collect(),
        }
    }

    /// A location's name, or its number.
    pub fn location(&self, index: usize) -> String {
        self.location_name(index).map_or_else(|| index.to_string(), str::to_string)
    }

    pub fn location_name(&self, index: usize) -> Option<&str> {
        named(&self.locations, index)
    }

    /// A location's number, and its name if it has one.
    pub fn place(&self, index: usize) -> String {
        self.location_name(index).map_or_else(|| index.to_string(), |name| format!("{} {}", index, name))
    }

    pub fn has_locations(&self) -> bool {
        self.locations.iter().any(Option::is_some)
    }

    /// A clock's name, or x and its number.
    pub fn clock(&self, index: usize) -> String {
        named(&self.clocks, index).map_or_else(|| Term::Clock(index).to_string(), str::to_string)
    }

    /// A counter's name, or v and its number.
    pub fn counter(&self, index: usize) -> String {
        named(&self.counters, index).map_or_else(|| Term::Counter(index).to_string(), str::to_string)
    }

    /// `edge`, its number, and its name if it has one.
    pub fn edge(&self, index: usize) -> String {
        self.edge_name(index).map_or_else(|| format!("edge {}", index), |name| format!("edge {} {}", index, name))
    }

    pub fn edge_name(&self, index: usize) -> Option<&str> {
        named(&self.edges, index)
    }

    /// `label`, its number, and its name if it has one.
    pub fn label(&self, index: usize) -> String {
        self.label_name(index).map_or_else(|| format!("label {}", index), |name| format!("label {} {}", index, name))
    }

    pub fn label_name(&self, index: usize) -> Option<&str> {
        named(&self.labels, index)
    }

    pub fn term(&self, term: Term) -> String {
        match term {
            Term::Clock(index) => self.clock(index),
            Term::Counter(index) => self.counter(index),
        }
    }

    pub fn atom(&self, atom: &Atom) -> String {
        format!("{}{}{}", self.term(atom.term), atom.relation.sign(), atom.constant)
    }
}

impl Kind {
    const ALL: [Kind; 5] = [Kind::Location, Kind::Clock, Kind::Counter, Kind::Edge, Kind::Label];

    fn word(self) -> &'static str {
        match self {
            Kind::Location => "location",
            Kind::Clock => "clock",
            Kind::Counter => "counter",
            Kind::Edge => "edge",
            Kind::Label => "label",
        }
    }

    fn named(word: &str) -> Option<Kind> {
        Kind::ALL.iter().copied().find(|kind| kind.word() == word)
    }
}

fn named(slots: &[Option<String>], index: usize) -> Option<&str> {
    slots.get(index).and_then(|slot| slot.as_deref())
}

fn is_name(text: &str) -> bool {
    let is_inner = |byte: u8| byte.is_ascii_alphanumeric() || b"_-.".contains(&byte);
    text.len() <= LONGEST_NAME && text.starts_with(|first: char| first.is_ascii_alphabetic()) && text.bytes().all(is_inner)
}

/// The file of names of a model file: the same name with the ending `.names`. Standard input has none, and a model file that has this
/// ending itself has none either.
fn path_beside(model: &Path) -> Option<PathBuf> {
    let path = model.with_extension("names");
    (model != Path::new("-") && path != model).then_some(path)
}
