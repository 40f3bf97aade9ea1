//! Reads the steps of a DRAT file: lemmas that are added and clauses that are deleted, in the text form or in the binary one.
//!
//! Text: numbers apart by white space, each step closed by 0, a deletion begun by `d`. Binary: each step begun by the byte `a` or `d`
//! and closed by the byte 0; a literal is twice its variable, and one more if it is negated, in groups of 7 bits, the lowest first,
//! all but the last with 128 added. Every binary step has a byte 0 and no text has, so that tells the forms apart.

#[derive(Clone, Copy, Debug, PartialEq, Eq)]
pub enum Step {
    Lemma,
    Deletion,
}

/// Where a file is malformed, as a byte from 0, and what is wrong there.
#[derive(Clone, Copy, Debug, PartialEq, Eq)]
pub struct Malformed {
    pub at: usize,
    pub what: &'static str,
}

pub struct Steps<'a> {
    bytes: &'a [u8],
    at: usize,
    binary: bool,
}

const ENDS: &str = "the file ends within a step";
const TOO_GREAT: &str = "a number is too great";

impl<'a> Steps<'a> {
    pub fn new(bytes: &'a [u8]) -> Steps<'a> {
        Steps { bytes, at: 0, binary: bytes.contains(&0) }
    }

    /// The next step, its literals put into `words`; none at the end of the file.
    pub fn next(&mut self, words: &mut Vec<i32>) -> Result<Option<Step>, Malformed> {
        words.clear();
        if !self.binary {
            self.skip_space();
        }
        let step = match self.bytes.get(self.at) {
            None => return Ok(None),
            Some(b'd') => Step::Deletion,
            Some(b'a') if self.binary => Step::Lemma,
            Some(_) if self.binary => return self.wrong("a step begins with neither a nor d"),
            Some(_) => Step::Lemma,
        };
        if self.binary || step == Step::Deletion {
            self.at += 1;
        }
        loop {
            match if self.binary { self.code()? } else { self.number()? } {
                0 => return Ok(Some(step)),
                word => words.push(word),
            }
        }
    }

    /// A literal of the binary form, or 0.
    fn code(&mut self) -> Result<i32, Malformed> {
        let mut code = 0u64;
        for shift in [0, 7, 14, 21, 28] {
            let byte = *self.bytes.get(self.at).ok_or(Malformed { at: self.at, what: ENDS })?;
            code |= u64::from(byte & 127) << shift;
            if byte < 128 {
                return self.literal(code);
            }
            self.at += 1;
        }
        self.wrong(TOO_GREAT)
    }

    fn literal(&mut self, code: u64) -> Result<i32, Malformed> {
        match i32::try_from(code / 2) {
            Err(_) => self.wrong(TOO_GREAT),
            Ok(0) if code == 1 => self.wrong("the variable 0 is negated"),
            Ok(variable) => {
                self.at += 1;
                Ok(if code % 2 == 0 { variable } else { -variable })
            }
        }
    }

    /// A number of the text form: digits, or - and digits that are not all 0.
    fn number(&mut self) -> Result<i32, Malformed> {
        self.skip_space();
        let negative = self.bytes.get(self.at) == Some(&b'-');
        let begin = self.at + usize::from(negative);
        let (mut at, mut number) = (begin, 0i32);
        while let Some(digit) = self.bytes.get(at).filter(|byte| byte.is_ascii_digit()) {
            let longer = number.checked_mul(10).and_then(|tens| tens.checked_add(i32::from(digit - b'0')));
            number = longer.ok_or(Malformed { at: self.at, what: TOO_GREAT })?;
            at += 1;
        }
        match self.bytes.get(at) {
            None if at == begin || number != 0 => Err(Malformed { at, what: ENDS }),
            Some(byte) if at == begin || !is_space(*byte) => Err(Malformed { at, what: "no number stands here" }),
            _ if negative && number == 0 => self.wrong("the variable 0 is negated"),
            _ => {
                self.at = at;
                Ok(if negative { -number } else { number })
            }
        }
    }

    fn skip_space(&mut self) {
        while self.bytes.get(self.at).map_or(false, |byte| is_space(*byte)) {
            self.at += 1;
        }
    }

    fn wrong<T>(&self, what: &'static str) -> Result<T, Malformed> {
        Err(Malformed { at: self.at, what })
    }
}

fn is_space(byte: u8) -> bool {
    matches!(byte, b' ' | b'\n' | b'\r' | b'\t')
}

#[cfg(test)]
mod tests {
    use super::{Malformed, Step, Steps, ENDS, TOO_GREAT};

    type Read = Vec<(Step, Vec<i32>)>;

    fn read(bytes: &[u8]) -> Result<Read, Malformed> {
        let (mut steps, mut words, mut read) = (Steps::new(bytes), Vec::new(), Vec::new());
        while let Some(step) = steps.next(&mut words)? {
            read.push((step, words.clone()));
        }
        Ok(read)
    }

    #[test]
    fn both_forms_say_the_same() {
        let steps = vec![
            (Step::Lemma, vec![63, -8193, 128]),
            (Step::Deletion, vec![-1, 2]),
            (Step::Lemma, vec![-2147483647]),
            (Step::Deletion, vec![]),
            (Step::Lemma, vec![]),
        ];
        assert_eq!(read(b"63 -8193 128 0\nd -1 2 0\r\n\t-2147483647   0 d 0 0"), Ok(steps.clone()));
        let binary = [
            &b"a\x7e\x83\x80\x01\x80\x02\x00"[..], // 126; 16387 = 3 + 128 * 128; 256 = 2 * 128
            b"d\x03\x04\x00",
            b"a\xff\xff\xff\xff\x0f\x00",
            b"d\x00",
            b"a\x00",
        ];
        assert_eq!(read(&binary.concat()), Ok(steps));
        assert_eq!(read(b""), Ok(vec![]));
        assert_eq!(read(b" \n"), Ok(vec![]));
    }

    #[test]
    fn a_deletion_of_the_text_form_is_no_binary_step() {
        assert_eq!(read(b"d 16 0\n"), Ok(vec![(Step::Deletion, vec![16])]));
    }

    #[test]
    fn malformed_files_have_a_place() {
        let no_number = "no number stands here";
        let rows: [(&[u8], usize, &str); 17] = [
            (b"1 2", 3, ENDS),
            (b"1 2 ", 4, ENDS),
            (b"1 -", 3, ENDS),
            (b"d", 1, ENDS),
            (b"1 x 0", 2, no_number),
            (b"1 2x 0", 3, no_number),
            (b"1 d 0", 2, no_number),
            (b"dd 1 0", 1, no_number),
            (b"c comment", 0, no_number),
            (b"1 - 2 0", 3, no_number),
            (b"1 -0 0", 2, "the variable 0 is negated"),
            (b"1 2147483648 0", 2, TOO_GREAT),
            (b"a\x02\x00b\x02\x00", 3, "a step begins with neither a nor d"),
            (b"a\x00a\x02", 4, ENDS),
            (b"a\x00a\x82", 4, ENDS),
            (b"a\x01\x00", 1, "the variable 0 is negated"),
            (b"a\x80\x80\x80\x80\x80\x01\x00", 6, TOO_GREAT),
        ];
        for (bytes, at, what) in rows {
            assert_eq!(read(bytes), Err(Malformed { at, what }), "{:?}", bytes);
        }
        assert_eq!(read(b"a\xff\xff\xff\xff\x7f\x00"), Err(Malformed { at: 5, what: TOO_GREAT }));
    }
}
