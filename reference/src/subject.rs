//! Models with a name and their text, for programs that compare answers: from a
//! record, or from the files of a folder, by themselves and in pairs.

use std::fs;
use std::path::{Path, PathBuf};

use crate::model::Model;
use crate::text::{read_whole, write};

#[derive(Clone)]
pub struct Subject {
    /// Where the model comes from.
    pub name: String,
    pub model: Model,
    pub text: Vec<u8>,
}

impl Subject {
    /// A record, which must be well formed.
    pub fn new(name: impl Into<String>, model: Model) -> Result<Subject, String> {
        let name = name.into();
        let text = write(&model).map_err(|refusal| format!("{name}: {refusal:?}"))?;
        Ok(Subject { name, model, text: text.into_bytes() })
    }

    /// A file with a model text that must be accepted; it has the file's name.
    fn from_file(path: &Path) -> Result<Subject, String> {
        let place = path.display();
        let text = fs::read(path).map_err(|error| format!("{place}: {error}"))?;
        let model = read_whole(&text).map_err(|refusal| format!("{place}: {refusal:?}"))?;
        let name = path.file_name().unwrap_or_default().to_string_lossy();
        Ok(Subject { name: name.into_owned(), model, text })
    }
}

/// The model texts of a folder, in the order of their file names.
pub fn shipped(folder: &Path) -> Result<Vec<Subject>, String> {
    let cause = |error| format!("{}: {error}", folder.display());
    let entries = fs::read_dir(folder).map_err(cause)?;
    let paths = entries.map(|entry| entry.map(|entry| entry.path()));
    let mut paths: Vec<PathBuf> = paths.collect::<Result<_, _>>().map_err(cause)?;
    paths.retain(|path| path.extension().map_or(false, |end| end == "txt"));
    paths.sort();
    paths.iter().map(|path| Subject::from_file(path)).collect()
}

/// The pairs of models of a folder that are to be composed, as its file `PAIRS.tsv`
/// names them.
pub fn shipped_pairs(folder: &Path) -> Result<Vec<(Subject, Subject)>, String> {
    let path = folder.join("PAIRS.tsv");
    let lines = fs::read_to_string(&path).map_err(|error| format!("{}: {error}", path.display()))?;
    let subject = |name: Option<&str>| Subject::from_file(&folder.join(format!("{}.txt", name.unwrap_or_default())));
    let pair = |line: &str| {
        let mut names = line.split('\t');
        Ok((subject(names.next())?, subject(names.next())?))
    };
    lines.lines().skip(1).map(pair).collect()
}
