//! What a command is asked about: the model of one text, or that of two texts composed. Each question goes to the library's call on one
//! text or to its call on two.

use std::fs::File;
use std::io::{self, Read};
use std::path::Path;

use crate::args::Files;
use crate::library::{self, Answer, FileAnswer, Shape, Sizes, State, StateAnswer};
use crate::{explain, limits};

/// A text of more bytes than this is refused, whatever it holds.
const LONGEST_TEXT: u64 = 8_192;

/// A model file: its name for messages, and its text.
pub struct Text {
    pub name: String,
    pub bytes: Vec<u8>,
}

impl Text {
    /// Reads no more of a file than it takes to see that the text is too long. An error is told with the name.
    fn read(path: &Path) -> Result<Text, String> {
        let name = path.display().to_string();
        let mut bytes = Vec::new();
        let outcome = if path == Path::new("-") {
            io::stdin().lock().take(LONGEST_TEXT + 1).read_to_end(&mut bytes)
        } else {
            File::open(path).and_then(|file| file.take(LONGEST_TEXT + 1).read_to_end(&mut bytes))
        };
        match outcome {
            Ok(_) => Ok(Text { name, bytes }),
            Err(error) => Err(format!("{} cannot be read: {}", name, error)),
        }
    }
}

pub enum Model {
    One(Text),
    Two(Text, Text),
}

impl Model {
    pub fn read(files: &Files) -> Result<Model, String> {
        let first = Text::read(&files.first)?;
        Ok(match &files.second {
            None => Model::One(first),
            Some(second) => Model::Two(first, Text::read(second)?),
        })
    }

    /// The name for messages about the model as a whole.
    pub fn name(&self) -> String {
        match self {
            Model::One(text) => text.name.clone(),
            Model::Two(first, second) => format!("{} and {}", first.name, second.name),
        }
    }

    /// What to say of a refusal of a call with this model, after the name of what is refused: of two texts the one that is refused, if
    /// the refusal is one of a text. The place is the line for these.
    pub fn refusal(&self, number: u8, place: usize) -> String {
        let in_text = |text: &Text| format!("{}: {}", text.name, explain::text_refusal(&text.bytes, number, place));
        match self {
            Model::One(text) => in_text(text),
            Model::Two(first, second) => match library::pair_read(&first.bytes, &second.bytes).text {
                1 => in_text(first),
                2 => in_text(second),
                _ => format!("{}: {}{}", self.name(), explain::refusal(number, place), self.limits_passed(number)),
            },
        }
    }

    /// A line for each limit that the composed model would pass, after 38.
    fn limits_passed(&self, number: u8) -> String {
        match self {
            Model::Two(first, second) if number == 38 => {
                limits::passed(&first.bytes, &second.bytes).iter().map(|limit| format!("\n    {}", limit)).collect()
            }
            _ => String::new(),
        }
    }

    /// Whether the text is accepted, or both texts and what they give: 0, or a refusal's number, and its line.
    pub fn accepted(&self) -> (u8, usize) {
        match self {
            Model::One(text) => {
                let answer = library::read(&text.bytes);
                (answer.number, answer.place)
            }
            Model::Two(first, second) => {
                let answer = library::pair_read(&first.bytes, &second.bytes);
                (answer.number, answer.line)
            }
        }
    }

    pub fn shape(&self) -> Shape {
        match self {
            Model::One(text) => library::shape(&text.bytes),
            Model::Two(first, second) => library::pair_shape(&first.bytes, &second.bytes),
        }
    }

    pub fn counts(&self, bound: usize) -> Sizes {
        match self {
            Model::One(text) => library::counts(&text.bytes, bound),
            Model::Two(first, second) => library::pair_counts(&first.bytes, &second.bytes, bound),
        }
    }

    pub fn dimacs(&self, bound: usize, out: &mut [u8]) -> FileAnswer {
        match self {
            Model::One(text) => library::dimacs(&text.bytes, bound, out),
            Model::Two(first, second) => library::pair_dimacs(&first.bytes, &second.bytes, bound, out),
        }
    }

    pub fn initial(&self) -> StateAnswer {
        match self {
            Model::One(text) => library::initial(&text.bytes),
            Model::Two(first, second) => library::pair_initial(&first.bytes, &second.bytes),
        }
    }

    pub fn step(&self, state: State, byte: u8) -> StateAnswer {
        match self {
            Model::One(text) => library::step(&text.bytes, state, byte),
            Model::Two(first, second) => library::pair_step(&first.bytes, &second.bytes, state, byte),
        }
    }

    pub fn walk(&self, run: &[u8]) -> Answer {
        match self {
            Model::One(text) => library::walk(&text.bytes, run),
            Model::Two(first, second) => library::pair_walk(&first.bytes, &second.bytes, run),
        }
    }

    pub fn assignment_to_run(&self, bound: usize, assignment: &[u8], run: &mut [u8]) -> Answer {
        match self {
            Model::One(text) => library::assignment_to_run(&text.bytes, bound, assignment, run),
            Model::Two(first, second) => library::pair_assignment_to_run(&first.bytes, &second.bytes, bound, assignment, run),
        }
    }
}
