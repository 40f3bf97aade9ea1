//! An accepted model, or two composed, with what is known of it beside the library's calls: its drawing and its names.

use crate::args::Files;
use crate::drawing::Drawing;
use crate::joined::joined;
use crate::library::{self, Shape};
use crate::model::{Model, Text};
use crate::names::Names;
use crate::report::{status, Stop};

/// What one text declares, or two composed.
pub struct Part {
    pub shape: Shape,
    pub drawing: Drawing,
    pub names: Names,
}

/// The model that a command is about; `whole` is the composed one if there are two parts.
pub struct Subject {
    pub model: Model,
    pub whole: Part,
    pub parts: Option<(Part, Part)>,
}

impl Subject {
    /// Reads the files; stops if one cannot be read or is refused, or if the two are too large together.
    pub fn open(files: &Files) -> Result<Subject, Stop> {
        Subject::of(Model::read(files).map_err(|message| Stop::new(status::FILE, message))?)
    }

    /// What is known of a model; stops if it or a file of names is refused.
    pub fn of(model: Model) -> Result<Subject, Stop> {
        let (number, line) = model.accepted();
        if number != 0 {
            return Err(Stop::refused(number, line, model.refusal(number, line)));
        }
        Ok(match &model {
            Model::One(text) => {
                let whole = Part::of(text)?;
                Subject { model, whole, parts: None }
            }
            Model::Two(first, second) => {
                let (first, second) = (Part::of(first)?, Part::of(second)?);
                let drawing = joined(&first.drawing, &second.drawing);
                let names = Names::joined(&first.names, &second.names);
                let whole = Part { shape: model.shape(), drawing, names };
                Subject { model, whole, parts: Some((first, second)) }
            }
        })
    }

    pub fn shape(&self) -> &Shape {
        &self.whole.shape
    }
}

impl Part {
    fn of(text: &Text) -> Result<Part, Stop> {
        let unread = || Stop::new(status::REFUSED, format!("{}: the text is accepted but could not be taken apart", text.name));
        let drawing = Drawing::of(&text.bytes).ok_or_else(unread)?;
        let names = Names::beside(&text.path, &drawing)?;
        Ok(Part { shape: library::shape(&text.bytes), drawing, names })
    }
}
