//! DRAT files that are malformed, cut, wrong or too large, and lists that need no file.

mod refuting;

use std::time::Instant;

use refuting::{assert_refuted, refuted_by, Random};
use wirdoku_next::refutation::{refutation, Limits, Malformed, Why};

/// All eight clauses of three variables: not refuted by units, and by these lemmas.
const LIST: [i32; 32] =
    [1, 2, 3, 0, 1, 2, -3, 0, 1, -2, 3, 0, 1, -2, -3, 0, -1, 2, 3, 0, -1, 2, -3, 0, -1, -2, 3, 0, -1, -2, -3, 0];
const FILE: &str = "1 2 0\n1 -2 0\n1 0\n-1 2 0\n0\n";

fn why(file: &[u8]) -> String {
    refuted_by(&LIST, file).unwrap_err().to_string()
}

#[test]
fn only_lemmas_that_are_used_stay() {
    let found = assert_refuted("plain", &LIST, FILE.as_bytes());
    assert!(found.lemmas.ends_with(&[0, 0]) && found.lemmas.len() <= 12, "{:?}", found.lemmas);
    // Lemmas that follow but lead nowhere, one that is always true, one with a literal that is true already.
    let list = [&LIST[..], &[4, 5, 0, 5, -4, 6, 0, 7, 0]].concat();
    let more = format!("5 6 0\n4 5 1 0\n4 1 -4 0\n-6 7 0\n{}", FILE);
    assert_eq!(assert_refuted("more", &list, more.as_bytes()).lemmas, found.lemmas);
}

#[test]
fn a_file_may_stop_where_units_refute() {
    let short = FILE.strip_suffix("0\n").unwrap();
    assert_eq!(refuted_by(&LIST, short.as_bytes()), refuted_by(&LIST, FILE.as_bytes()));
    // What follows the empty clause is not read.
    assert_refuted("long", &LIST, format!("{}s UNSATISFIABLE\n", FILE).as_bytes());
}

#[test]
fn lists_that_units_refute_need_no_file() {
    let lists: [(&[i32], usize); 6] = [
        (&[0], 1),
        (&[1, 2, 0, 0, 3, 0], 1),
        (&[1, 0, -1, 0], 2),
        (&[2, 2, 0, -2, 1, -2, 0, 3, -3, 0, -1, -1, -2, 0], 3),
        (&[-1, -2, 0, 1, 0, 2, 0], 3),
        (&[7, -9, 0, 9, 0, -7, 8, 0, -8, -9, 0, 8, -8, 0], 4),
    ];
    for (list, hints) in lists {
        for file in [&b""[..], b"0\n", b"a\0", b"1 0\n0\n", b"nonsense"] {
            let found = assert_refuted("units", list, file);
            assert_eq!((found.lemmas, found.hints.len()), (vec![0], hints), "{:?}", list);
        }
    }
}

#[test]
fn deletions_are_followed_but_for_what_was_forced() {
    // Without (1 2 3) the first lemma does not follow; the same clause with another order and a literal twice is meant.
    assert_eq!(refuted_by(&LIST, format!("d 3 1 2 1 0\n{}", FILE).as_bytes()), Err(Why::NotRup(1)));
    // A clause that is not there, one that is always true, one with a variable of its own: nothing is deleted.
    assert_refuted("not there", &LIST, format!("d 1 2 0\nd 1 -1 0\nd 1 9 0\nd 0\n{}", FILE).as_bytes());
    // Of two such clauses one stays.
    assert_refuted("twice", &LIST, format!("1 2 3 0\nd 1 2 3 0\n{}", FILE).as_bytes());
    assert_eq!(refuted_by(&LIST, format!("1 2 3 0\nd 1 2 3 0\nd 1 2 3 0\n{}", FILE).as_bytes()), Err(Why::NotRup(2)));
    // 1 was forced, by the lemma 1 or by (1 2) with -2: neither is deleted.
    assert_refuted("unit", &LIST, FILE.replacen("1 0\n-1", "1 0\nd 1 0\n-1", 1).as_bytes());
    assert_refuted("forced", &[1, 2, 0, -2, 0, -1, 3, 4, 0, -1, 3, -4, 0, -3, 5, 0, -3, -5, 0], b"d 1 2 0\n3 0\n0\n");
    // The lemma (1 2) forces 2 with -1, and must be tested without itself.
    let list = [1, 2, 3, 0, 1, 2, -3, 0, -1, 4, 0, -1, -4, 0, -2, 5, 6, 0, -2, 5, -6, 0, -2, -5, 6, 0, -2, -5, -6, 0];
    assert_refuted("forced by a lemma", &list, b"1 2 0\n-1 0\nd 1 2 0\n5 0\n0\n");
    // A clause that was deleted may be added again, if it follows.
    assert_refuted("again", &LIST, format!("1 2 0\nd 1 2 3 0\n1 2 3 0\n{}", FILE).as_bytes());
}

#[test]
fn wrong_lemmas_have_a_number() {
    assert_eq!(why(b"1 0\n-1 2 0\n0\n"), "lemma 1 does not follow by unit propagation from the clauses before it");
    assert_eq!(refuted_by(&LIST, b"1 2 0\n0\n"), Err(Why::NotRup(2)));
    assert_eq!(refuted_by(&LIST, b"0\n"), Err(Why::NotRup(1)));
    assert_eq!(refuted_by(&[], b"0\n"), Err(Why::NotRup(1)));
    // With -3 lemma 3 is the wrong one: what rests on it is fine.
    assert_eq!(refuted_by(&LIST, b"1 2 0\nd 1 2 3 0\n-3 0\n1 0\n0\n"), Err(Why::NotRup(2)));
    assert_eq!(why(b"1 2 0\n1 4 0\n0\n"), "lemma 2 has a variable that the list does not have");
    // Wrong, but not used.
    assert_refuted("not used", &[1, 2, 0, 1, -2, 0, -1, 2, 0, -1, -2, 0, 3, 4, 0], b"3 0\n1 0\n0\n");
}

#[test]
fn files_that_end_early_or_are_malformed_are_told() {
    assert_eq!(why(b""), "it ends before the empty clause");
    assert_eq!(why(b"1 2 0\n1 -2 0\n"), "it ends before the empty clause");
    assert_eq!(why(b"1 2 0\n1 -"), "it is malformed at byte 9: the file ends within a step");
    assert_eq!(why(b"1 2 0\nhello"), "it is malformed at byte 6: no number stands here");
    let wrong = Malformed { at: 4, what: "a step begins with neither a nor d" };
    assert_eq!(refuted_by(&LIST, b"a\x02\x04\x00s UNSATISFIABLE"), Err(Why::Malformed(wrong)));
    assert_eq!(refuted_by(&[1, 0, -1], b"0\n").unwrap_err().to_string(), "the last clause of the list is not closed");
}

/// Every beginning of a file and every byte of it changed, in both forms: an answer, and no wrong one.
#[test]
fn cut_and_changed_bytes_do_no_harm() {
    let binary = b"a\x02\x04\x00a\x02\x05\x00d\x06\x02\x04\x00a\x02\x00a\x03\x04\x00a\x00";
    for file in [FILE.as_bytes(), binary] {
        assert_refuted("whole", &LIST, file);
        for at in 0..file.len() {
            let mut files = vec![file[..at].to_vec()];
            files.extend((0..=255).map(|byte| [&file[..at], &[byte], &file[at + 1..]].concat()));
            for file in files {
                if refuted_by(&LIST, &file).is_ok() {
                    assert_refuted("changed", &LIST, &file);
                }
                assert!(refuted_by(&LIST[..28], &file).is_err());
            }
        }
    }
}

#[test]
fn random_bytes_do_no_harm() {
    let mut random = Random(26);
    for _ in 0..5000 {
        let alphabet: &[u8] = [&b"0123 -d\n"[..], b"ad\x00\x02\x03\x04\x05\x06\x07\x80"][random.below(2)];
        let length = random.below(60);
        let file: Vec<u8> = (0..length).map(|_| alphabet[random.below(alphabet.len())]).collect();
        assert!(refuted_by(&LIST[..28], &file).is_err(), "{:?}", file);
        if refuted_by(&LIST, &file).is_ok() {
            assert_refuted("random", &LIST, &file);
        }
    }
}

#[test]
fn what_is_too_large_is_told() {
    let limits = Limits::default();
    let told = |limits| refutation(&LIST, FILE.as_bytes(), limits).unwrap_err().to_string();
    assert_eq!(told(Limits { bytes: FILE.len() - 1, ..limits }), "it has more than 25 bytes");
    assert!(refutation(&LIST, FILE.as_bytes(), Limits { bytes: FILE.len(), ..limits }).is_ok());
    assert_eq!(told(Limits { lemmas: 3, ..limits }), "it has more than 3 lemmas");
    assert!(refutation(&LIST, FILE.as_bytes(), Limits { lemmas: 4, ..limits }).is_ok());
    assert_eq!(told(Limits { memory: 800, ..limits }), "it would take more than 800 bytes of memory");
    assert_eq!(told(Limits { until: Some(Instant::now()), ..limits }), "the time was used up");
    let wide = [i32::MIN, 0, i32::MAX, 0];
    assert_eq!(refuted_by(&wide, b"0\n"), Err(Why::Memory(limits.memory)));
}
