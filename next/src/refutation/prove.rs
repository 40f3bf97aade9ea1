//! The whole way from a solver's DRAT file to the checker's answer.

use std::time::{Duration, Instant};

use super::{refutation, Limits, Why};

/// What `/bin/sh -c` is given, with the path of cadical and options after it: a DIMACS file is read at standard input, and the DRAT file
/// goes to standard output, through no file. The answer is left to the exit status, 20 where there is a refutation.
pub const CADICAL: &str = "exec \"$0\" -q \"$@\" - /dev/fd/3 3>&1 >/dev/null";

/// What was checked, and how long the parts took.
#[derive(Clone, Copy, Debug, PartialEq, Eq)]
pub struct Account {
    pub lemmas: usize,
    pub hints: usize,
    pub trimming: Duration,
    pub checking: Duration,
}

/// Turns a DRAT file into lemmas with hints and asks a checker, which gets the list followed by the lemmas, and the hints. The proved
/// call writes the list anew, so that nothing that was done here to its words counts.
pub fn prove(
    list: &[i32],
    file: &[u8],
    limits: Limits,
    refuted: impl FnOnce(&mut [i32], &[u32]) -> bool,
) -> Result<Account, Why> {
    let began = Instant::now();
    let found = refutation(list, file, limits)?;
    let mut words = Vec::with_capacity(list.len() + found.lemmas.len());
    words.extend_from_slice(list);
    words.extend_from_slice(&found.lemmas);
    let trimmed = Instant::now();
    if !refuted(&mut words, &found.hints) {
        return Err(Why::NotAccepted);
    }
    let lemmas = found.lemmas.iter().filter(|word| **word == 0).count();
    let (trimming, checking) = (trimmed - began, trimmed.elapsed());
    Ok(Account { lemmas, hints: found.hints.len(), trimming, checking })
}

/// A line on the times, for standard error.
pub fn times(solver: &str, solving: Duration, account: &Account) -> String {
    format!(
        "{} {:.2} s; {} lemmas with {} hints from its refutation {:.2} s; proved check {:.2} s",
        solver,
        solving.as_secs_f64(),
        account.lemmas,
        account.hints,
        account.trimming.as_secs_f64(),
        account.checking.as_secs_f64()
    )
}

#[cfg(test)]
mod tests {
    use super::{prove, times, Account};
    use crate::refutation::{check, Limits, Why};
    use std::time::Duration;

    const LIST: [i32; 12] = [1, 2, 0, -1, 2, 0, 1, -2, 0, -1, -2, 0];

    #[test]
    fn the_checker_gets_list_lemmas_and_hints() {
        let proved = prove(&LIST, b"2 0\n0\n", Limits::default(), |words, hints| {
            assert_eq!(words, [&LIST[..], &[2, 0, 0]].concat());
            assert_eq!(hints, [0, 3, 12, 6, 9]);
            check::refuted(words, LIST.len(), hints)
        });
        let account = proved.unwrap();
        assert_eq!((account.lemmas, account.hints), (2, 5));
    }

    #[test]
    fn what_is_not_refuted_is_told() {
        assert_eq!(prove(&LIST, b"2 0\n0\n", Limits::default(), |_, _| false), Err(Why::NotAccepted));
        let asked = |_: &mut [i32], _: &[u32]| panic!("there is nothing to ask");
        assert_eq!(prove(&LIST, b"d 1 2 0\n2 0\n0\n", Limits::default(), asked), Err(Why::NotRup(1)));
    }

    #[test]
    fn the_times_of_the_parts() {
        let [trimming, checking] = [120, 9].map(Duration::from_millis);
        let account = Account { lemmas: 13787, hints: 440550, trimming, checking };
        let line = "cadical 0.60 s; 13787 lemmas with 440550 hints from its refutation 0.12 s; proved check 0.01 s";
        assert_eq!(times("cadical", Duration::from_millis(600), &account), line);
    }
}
