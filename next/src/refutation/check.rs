//! A plain checker of refutations. It is not proved: it stands beside the proved one for tests.

use std::collections::HashSet;

/// The greatest variable of any list, and so of any lemma.
const GREATEST: u32 = 21_776;

/// Whether lemmas with hints refute a list. `words` has `n` words of the list, then those of the lemmas, each clause closed by 0; the
/// last lemma is empty. A hint is a place in `words` where a clause begins, before the lemma that it is for. The literals of a lemma
/// are taken to be false; each hint's clause must leave one literal, whose opposite is then taken to be false too, or none: then the
/// lemma is accepted, and the next hint is for the next lemma.
pub fn refuted(words: &[i32], n: usize, hints: &[u32]) -> bool {
    if words.iter().any(|word| word.unsigned_abs() > GREATEST) {
        return false;
    }
    let mut at = n;
    let mut hints = hints.iter().map(|hint| *hint as usize);
    while let Some(lemma) = clause(words, at) {
        if !accepted(words, at, lemma, &mut hints) {
            return false;
        }
        if lemma.is_empty() {
            return true;
        }
        at += lemma.len() + 1;
    }
    false
}

/// The literals of the clause that begins at a place; none if no 0 closes it.
fn clause(words: &[i32], at: usize) -> Option<&[i32]> {
    let words = words.get(at..)?;
    let length = words.iter().position(|word| *word == 0)?;
    Some(&words[..length])
}

fn accepted(words: &[i32], at: usize, lemma: &[i32], hints: &mut dyn Iterator<Item = usize>) -> bool {
    let mut falsified: HashSet<i32> = lemma.iter().copied().collect();
    for hint in hints {
        if hint >= at || (hint > 0 && words[hint - 1] != 0) {
            return false;
        }
        let left: Option<HashSet<i32>> =
            clause(words, hint).map(|clause| clause.iter().copied().filter(|literal| !falsified.contains(literal)).collect());
        match left {
            Some(left) if left.is_empty() => return true,
            Some(left) if left.len() == 1 => falsified.extend(left.iter().map(|literal| -literal)),
            _ => return false,
        }
    }
    false
}

#[cfg(test)]
mod tests {
    use super::refuted;

    #[test]
    fn refutations_are_accepted() {
        assert!(refuted(&[1, 0, -1, 0, 0], 4, &[0, 2]));
        assert!(refuted(&[0, 0], 1, &[0]));
        // A literal that stands twice is left once.
        assert!(refuted(&[1, 1, 0, -1, -1, -1, 0, 0], 7, &[0, 3]));
        // What follows the empty lemma, and hints after the last, are not read.
        assert!(refuted(&[1, 0, -1, 0, 0, 7, 0], 4, &[0, 2, 99]));
        // (1 2) (-1 2) (1 -2) (-1 -2), the lemma 2, the empty one
        let words = [1, 2, 0, -1, 2, 0, 1, -2, 0, -1, -2, 0, 2, 0, 0];
        assert!(refuted(&words, 12, &[0, 3, 12, 6, 9]));
        assert!(!refuted(&words, 12, &[0, 3, 12, 6]));
        assert!(!refuted(&words, 12, &[3, 12, 6, 9]));
    }

    /// Lists that can be satisfied; what a wrong checker would have to allow is named.
    #[test]
    fn what_refutes_nothing_is_refused() {
        let rows: [(&str, &[i32], usize, &[u32]); 12] = [
            ("a hint to the middle of a clause", &[1, -2, 0, 2, 0, 0], 5, &[3, 1]),
            ("a hint to the middle of the first clause", &[-2, 1, -2, 0, 2, 0, 0], 6, &[4, 2]),
            ("a lemma that follows from itself", &[1, 0, -1, 0, 0], 2, &[2, 0, 2]),
            ("a lemma that stands later", &[1, 0, -1, 0, -1, 0, 0], 2, &[4, 2, 0, 2]),
            ("two literals left, the last one taken", &[1, 2, 0, -2, 0, 0], 5, &[0, 3]),
            ("two literals left, the first one taken", &[1, 2, 0, -1, 0, 0], 5, &[0, 3]),
            ("a last lemma that is not empty", &[1, 0, 1, 0], 2, &[0]),
            ("literals of the lemma before kept", &[1, 2, 0, 1, 2, 0, 0], 3, &[0, 0]),
            ("the literal that is left made false", &[1, 0, 0], 2, &[0, 0]),
            ("a hint to the empty lemma itself", &[1, 0, 0], 2, &[2]),
            ("no hint for the empty lemma", &[1, 0, 0], 2, &[]),
            ("a hint past the words", &[1, 0, 0], 2, &[9]),
        ];
        for (name, words, n, hints) in rows {
            assert!(!refuted(words, n, hints), "{}", name);
        }
    }

    #[test]
    fn any_words_are_taken() {
        assert!(!refuted(&[], 0, &[]));
        assert!(!refuted(&[0], 1, &[0]));
        assert!(!refuted(&[0], 9, &[0]));
        assert!(!refuted(&[1, 0, -1, 0, 5], 4, &[0, 2]));
        assert!(!refuted(&[i32::MIN, 0, 0], 2, &[0, 0]));
        assert!(refuted(&[21_776, 0, -21_776, 0, 0], 4, &[0, 2]));
        assert!(!refuted(&[21_777, 0, -21_777, 0, 0], 4, &[0, 2]));
    }
}
