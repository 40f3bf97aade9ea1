//! What the numbers of refusals mean, in plain sentences, and the line of a text or of a solver's output that is refused.

/// The longest part of a line that is shown, in characters.
const SHOWN: usize = 160;

/// What a refusal's number means; none for a number that no refusal has.
pub fn sentence(number: u8) -> Option<&'static str> {
    Some(match number {
        1 => "the text has more than 8,192 bytes",
        2 => "the line does not begin with the key that is due here and `=`, or is not ended by LF",
        3 => {
            "the value does not have the form that its key asks for: no spaces, numbers of 1 to 3 digits without a leading zero, \
             items parted by commas, `-` alone for none; != is for counters only, an invariant names clocks only, \
             an offset of 0 is +0, an item of reset is a clock or a copy such as x0:=x1"
        }
        4 => {
            "a number is outside its range: locations 1 to 16, clocks and vars 0 to 4, edges 0 to 32, labels 0 to 15, \
             clock constants 0 to 30, counter values and offsets up to 31, an initial value up to its greatest value"
        }
        5 => "a location, clock or counter is not declared; of a copy such as x0:=x1, either clock",
        6 => "a counter is set twice in one edge, or the clocks that reset sets do not rise from left to right",
        7 => "an invariant or a guard has more than four atoms",
        8 => "something follows the last line that is due",
        9 => "the first line of the size program's input is not `bound=` and a number",
        10 => "a number of the given state is outside its range, or a counter or clock that is not declared is not 0",
        20 => "the model record is not well formed",
        21 => "the bound, or the length of the run, is above 64",
        22 => "the word buffer is shorter than the clause list",
        23 => "the assignment does not have exactly one byte for each variable",
        24 => "a byte of the assignment is neither 0 nor 1",
        25 => "the run buffer is shorter than the bound",
        26 => "a clause is false under the assignment",
        27 => "the step byte stands for no delay and no edge of the model",
        28 => "the step is not allowed where it is taken",
        29 => "the initial state breaks its invariant, so the model has no run at all",
        30 => "the run does not end in the target location",
        31 => "the assignment buffer is shorter than the number of variables",
        32 => "the byte buffer is shorter than the DIMACS file",
        33 => {
            "the line of the solver's output is none of `s SATISFIABLE`, `s UNSATISFIABLE`, `v` with literals and `c ` with a \
             comment, or is out of place, or is not ended by LF"
        }
        34 => "a literal of the solver's output names a variable above the greatest, or one that was named before",
        35 => {
            "the closing 0 of the solver's output comes with a variable unnamed, or the output ends without it or without \
             an `s` line"
        }
        38 => {
            "the composed model would have more locations, clocks, counters, edges or atoms than a model may have: at most 16 \
             locations, 4 clocks, 4 counters, 32 edges, 4 atoms in an invariant or a guard"
        }
        _ => return None,
    })
}

/// What the place of a refusal counts; none for a refusal without a place.
pub fn place_name(number: u8) -> Option<&'static str> {
    match number {
        2..=8 | 33..=35 => Some("line"),
        24 => Some("byte"),
        26 => Some("clause"),
        27 | 28 => Some("step"),
        _ => None,
    }
}

/// A refusal as a line: number, place and sentence.
pub fn refusal(number: u8, place: usize) -> String {
    let sentence = sentence(number).unwrap_or("a number that no refusal has");
    match place_name(number) {
        Some(name) => format!("refusal {}, {} {}: {}", number, name, place, sentence),
        None => format!("refusal {}: {}", number, sentence),
    }
}

/// A refusal of a text or of a solver's output: the line above, and below it the text's line and what is wrong there. Line 0 is no
/// line.
pub fn text_refusal(text: &[u8], number: u8, line: usize) -> String {
    refusal_with(text, number, line, &hints(text, number, line))
}

/// The same with these words on what is wrong there.
pub fn refusal_with(text: &[u8], number: u8, line: usize, hints: &[String]) -> String {
    let mut report = refusal(number, line);
    if line > 0 {
        report.push_str("\n    ");
        report.push_str(&shown_line(text, line));
    }
    for hint in hints {
        report.push_str("\n    ");
        report.push_str(hint);
    }
    report
}

/// A line of the text without its LF, and whether it has one; none if the text has fewer lines.
pub fn line_of(text: &[u8], line: usize) -> Option<(&[u8], bool)> {
    let mut pieces = text.split_inclusive(|byte| *byte == b'\n');
    let piece = pieces.nth(line.checked_sub(1)?)?;
    Some(match piece.split_last() {
        Some((b'\n', rest)) => (rest, true),
        _ => (piece, false),
    })
}

/// A line, escaped where it cannot be printed, and cut if it is long.
fn shown_line(text: &[u8], line: usize) -> String {
    let bytes = match line_of(text, line) {
        None => return "(the text ends before this line)".to_string(),
        Some((b"", _)) => return "(an empty line)".to_string(),
        Some((bytes, _)) => bytes,
    };
    let shown = bytes.iter().take(SHOWN).flat_map(|byte| escaped(*byte)).collect::<String>();
    if bytes.len() > SHOWN {
        format!("{shown} .. ({} bytes)", bytes.len())
    } else {
        shown
    }
}

/// Unlike Rust's own escapes these leave quotes as they are.
pub fn escaped(byte: u8) -> Vec<char> {
    if byte == b'\'' || byte == b'"' {
        return vec![char::from(byte)];
    }
    std::ascii::escape_default(byte).map(char::from).collect()
}

/// What is wrong in a line, as far as its end, its key or its beginning shows it.
pub fn hints(text: &[u8], number: u8, line: usize) -> Vec<String> {
    let mut hints = Vec::new();
    let found = line_of(text, line);
    if let (2, Some(key)) = (number, due_key(text, line)) {
        hints.push(format!("due here: {}=", key));
    }
    if let (2 | 33, Some((_, false))) = (number, found) {
        hints.push("the line has no LF at its end".to_string());
    }
    if let (33, Some((b"c", _))) = (number, found) {
        hints.push("a comment begins with `c` and a space".to_string());
    }
    if found.map_or(false, |(bytes, _)| bytes.ends_with(b"\r")) {
        hints.push("the line ends with CR LF; lines end with LF alone".to_string());
    }
    hints
}

/// The key that is due in a line, if all lines before it are in order.
fn due_key(text: &[u8], line: usize) -> Option<&'static str> {
    const HEAD: [&str; 5] = ["locations", "init", "target", "clocks", "vars"];
    const EDGE: [&str; 6] = ["from", "to", "label", "when", "set", "reset"];
    let place = line.checked_sub(1)?;
    if place < HEAD.len() {
        return Some(HEAD[place]);
    }
    let counters = value_of(text, 5, "vars=")?;
    let locations = value_of(text, 1, "locations=")?;
    let edges = HEAD.len() + counters + locations;
    Some(match place {
        _ if place < HEAD.len() + counters => "var",
        _ if place < edges => "inv",
        _ if place == edges => "edges",
        _ => EDGE[(place - edges - 1) % EDGE.len()],
    })
}

/// The number in a line, if the line has this key.
pub fn value_of(text: &[u8], line: usize, key: &str) -> Option<usize> {
    let (bytes, _) = line_of(text, line)?;
    std::str::from_utf8(bytes).ok()?.strip_prefix(key)?.parse().ok()
}

#[cfg(test)]
mod tests {
    use super::{due_key, refusal, sentence, shown_line, text_refusal};

    #[test]
    fn each_number_of_the_table_has_a_sentence_and_no_other() {
        let numbers: Vec<u8> = (0..=255).filter(|number| sentence(*number).is_some()).collect();
        let table: Vec<u8> = (1..=10).chain(20..=35).chain([38]).collect();
        assert_eq!(numbers, table);
        for number in table {
            let text = sentence(number).unwrap();
            assert!(!text.contains("  ") && !text.ends_with('.'), "{}", text);
        }
    }

    #[test]
    fn places_are_named() {
        assert!(refusal(4, 7).starts_with("refusal 4, line 7: a number"));
        assert!(refusal(26, 15).starts_with("refusal 26, clause 15: "));
        assert!(refusal(28, 2).starts_with("refusal 28, step 2: "));
        assert!(refusal(24, 0).starts_with("refusal 24, byte 0: "));
        assert!(refusal(21, 0).starts_with("refusal 21: "));
        assert!(refusal(1, 0).starts_with("refusal 1: "));
        assert!(refusal(38, 0).starts_with("refusal 38: "));
        for number in 33..=35 {
            assert!(refusal(number, 9).starts_with(&format!("refusal {}, line 9: ", number)));
        }
    }

    #[test]
    fn lines_are_shown_escaped_and_cut() {
        assert_eq!(shown_line(b"a=1\nb=\"2'\\\n", 2), "b=\"2'\\\\");
        assert_eq!(shown_line(b"a=1\nb\t\x00\xff\r\n", 2), "b\\t\\x00\\xff\\r");
        assert_eq!(shown_line(b"a=1\n", 2), "(the text ends before this line)");
        assert_eq!(shown_line(b"", 1), "(the text ends before this line)");
        assert_eq!(shown_line(b"\n", 1), "(an empty line)");
        let long = shown_line(&[b'7'; 500], 1);
        assert_eq!(long, format!("{} .. (500 bytes)", "7".repeat(160)));
    }

    #[test]
    fn hints_name_what_was_due() {
        let report = text_refusal(b"locations=2\nstart=0\n", 2, 2);
        assert!(report.ends_with("\n    start=0\n    due here: init="), "{}", report);
        let report = text_refusal(b"locations=2", 2, 1);
        assert!(report.ends_with("\n    due here: locations=\n    the line has no LF at its end"), "{}", report);
        let report = text_refusal(b"locations=2\r\n", 3, 1);
        assert!(report.ends_with("\n    locations=2\\r\n    the line ends with CR LF; lines end with LF alone"), "{}", report);
        assert!(!text_refusal(&[b'x'; 9000], 1, 0).contains('\n'));
        let report = text_refusal(b"s SATISFIABLE\nc\n", 33, 2);
        assert!(report.ends_with("\n    c\n    a comment begins with `c` and a space"), "{}", report);
        let report = text_refusal(b"s SATISFIABLE\nc x", 33, 2);
        assert!(report.ends_with("\n    c x\n    the line has no LF at its end"), "{}", report);
        let report = text_refusal(b"s SATISFIABLE\nv 1 1 0\n", 34, 2);
        assert!(report.ends_with("\n    v 1 1 0"), "{}", report);
    }

    #[test]
    fn the_due_key_follows_the_declared_numbers() {
        let text = b"locations=3\ninit=0\ntarget=0\nclocks=0\nvars=2\n";
        let keys: Vec<_> = (1..=19).map(|line| due_key(text, line).unwrap()).collect();
        let expected = "locations init target clocks vars var var inv inv inv edges from to label when set reset from to";
        assert_eq!(keys.join(" "), expected);
        assert_eq!(due_key(b"locations=3\n", 6), None);
        assert_eq!(due_key(text, 0), None);
    }
}
