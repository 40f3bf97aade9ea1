//! Inputs of a failed case, short enough to read.

/// Most numbers of a list that are shown.
const MOST_NUMBERS: usize = 300;
/// Most bytes of a long text that are shown.
const MOST_BYTES: usize = 500;

/// A text in quotes, escaped; more than eight equal bytes in a row are told by their count.
pub fn text(text: &[u8]) -> String {
    let mut shown = String::new();
    let mut rest = text;
    while let Some(&byte) = rest.first() {
        let equal = rest.iter().take_while(|other| **other == byte).count();
        let one = [byte].escape_ascii().to_string();
        let run = if equal > 8 { format!("{one}<{equal} times>") } else { one.repeat(equal) };
        shown.push_str(&run);
        rest = &rest[equal..];
    }
    format!("\"{shown}\"")
}

/// A text as above, or the beginning of a long one and its length.
pub fn beginning(whole: &[u8]) -> String {
    match whole.get(..MOST_BYTES) {
        None => text(whole),
        Some(beginning) => format!("{} .. ({} bytes)", text(beginning), whole.len()),
    }
}

/// The bytes of a run.
pub fn run(run: &[u8]) -> String {
    let numbers = run.iter().map(u8::to_string);
    format!("{} steps: {}", run.len(), spaced(numbers))
}

/// The variables that are true, and each byte that is not 0 or 1 with its index.
pub fn assignment(assignment: &[u8]) -> String {
    let numbers = assignment.iter().enumerate().filter_map(|(index, byte)| match byte {
        0 => None,
        1 => Some((index + 1).to_string()),
        _ => Some(format!("[{index}]={byte}")),
    });
    format!("{} bytes, true: {}", assignment.len(), spaced(numbers))
}

fn spaced(numbers: impl Iterator<Item = String>) -> String {
    let mut numbers: Vec<String> = numbers.take(MOST_NUMBERS + 1).collect();
    if numbers.len() > MOST_NUMBERS {
        numbers[MOST_NUMBERS] = "..".to_string();
    }
    numbers.join(" ")
}

#[cfg(test)]
mod tests {
    #[test]
    fn texts_are_escaped_and_long_rows_counted() {
        assert_eq!(super::text(b"a=\"\n\n\xff"), "\"a=\\\"\\n\\n\\xff\"");
        assert_eq!(super::text(&[b'\n'; 9]), "\"\\n<9 times>\"");
    }

    #[test]
    fn long_texts_are_cut() {
        assert_eq!(super::beginning(b"ab"), "\"ab\"");
        assert_eq!(super::beginning(&[b'a'; 600]), "\"a<500 times>\" .. (600 bytes)");
    }

    #[test]
    fn assignments_are_told_by_their_true_variables() {
        assert_eq!(super::assignment(&[0, 1, 7, 1]), "4 bytes, true: 2 [2]=7 4");
    }
}
