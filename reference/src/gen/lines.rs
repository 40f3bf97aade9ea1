//! Changes of whole lines, for the generators of damaged texts.

use super::rng::Rng;

/// The lines of a text, each with its LF.
pub type Lines = Vec<Vec<u8>>;

/// Applies a change to the lines of a text that has at least one.
pub fn with_lines(rng: &mut Rng, text: &[u8], change: fn(&mut Rng, Lines) -> Lines) -> Vec<u8> {
    let lines: Lines = text.split_inclusive(|byte| *byte == b'\n').map(<[u8]>::to_vec).collect();
    if lines.is_empty() {
        return Vec::new();
    }
    change(rng, lines).concat()
}

/// Drops, doubles or swaps lines.
pub fn moved_line(rng: &mut Rng, mut lines: Lines) -> Lines {
    let (one, other) = (rng.below(lines.len()), rng.below(lines.len()));
    match rng.below(3) {
        0 => drop(lines.remove(one)),
        1 => lines.insert(one, lines[other].clone()),
        _ => lines.swap(one, other),
    }
    lines
}
