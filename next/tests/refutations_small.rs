//! Small lists, whose assignments can be tried one by one, with literals that stand twice and clauses that are always true among
//! them. Needs cadical.

mod refuting;

use refuting::{assert_refuted, dimacs, drat, refuted_by, satisfiable, with_lemmas, Random, BINARY, TEXT};
use wirdoku_next::refutation::{check, Why};

/// Lists of 2 to 12 variables that cannot be satisfied, and which form of a DRAT file is asked for.
fn unsatisfiable(random: &mut Random, count: usize) -> Vec<(Vec<i32>, &'static str)> {
    let mut lists = Vec::new();
    while lists.len() < count {
        let variables = 2 + random.below(11).max(random.below(11));
        let clauses = 4 * variables + random.below(2 * variables);
        let list = random.list(variables, clauses);
        if !satisfiable(&list) {
            lists.push((list, [TEXT, BINARY][lists.len() % 2]));
        }
    }
    lists
}

fn satisfiable_list(random: &mut Random) -> Vec<i32> {
    loop {
        let variables = 2 + random.below(11);
        let clauses = 1 + random.below(4 * variables);
        let list = random.list(variables, clauses);
        if satisfiable(&list) {
            return list;
        }
    }
}

/// Where clauses begin.
fn beginnings(words: &[i32]) -> Vec<u32> {
    (0..words.len()).filter(|at| *at == 0 || words[at - 1] == 0).map(|at| at as u32).collect()
}

#[test]
fn what_cannot_be_satisfied_is_refuted() {
    let mut random = Random(22);
    let mut lemmas = 0;
    for (list, form) in unsatisfiable(&mut random, 150) {
        let (status, file) = drat(&dimacs(&list), form);
        assert_eq!(status, Some(20), "{:?}", list);
        let found = assert_refuted(&format!("{:?}", list), &list, &file);
        lemmas += found.lemmas.iter().filter(|word| **word == 0).count();
    }
    assert!(lemmas > 300, "{} lemmas are no test", lemmas);
}

/// Words negated or replaced in the list and in the lemmas, hints changed, left out, put in: what is still accepted cannot be satisfied.
#[test]
fn damaged_lists_are_refused_if_they_can_be_satisfied() {
    let mut random = Random(23);
    let (mut refused, mut accepted) = (0, 0);
    for (list, form) in unsatisfiable(&mut random, 40) {
        let (_, file) = drat(&dimacs(&list), form);
        let found = assert_refuted(&format!("{:?}", list), &list, &file);
        for _ in 0..150 {
            let (mut words, mut hints) = (with_lemmas(&list, &found.lemmas), found.hints.clone());
            for _ in 0..1 + random.below(3) {
                damage(&mut random, &mut words, list.len(), &mut hints);
            }
            if !check::refuted(&words, list.len(), &hints) {
                refused += 1;
                continue;
            }
            accepted += 1;
            assert!(!satisfiable(&words[..list.len()]), "{:?}", words);
        }
    }
    assert!(refused > 1000 && accepted > 100, "{} refused and {} accepted are no test", refused, accepted);
}

/// Changes one thing, but closes the clauses of the list where they were closed.
fn damage(random: &mut Random, words: &mut [i32], n: usize, hints: &mut Vec<u32>) {
    let (at, hint) = (random.below(words.len()), random.below(hints.len() + 1));
    let places = beginnings(words);
    let place = places[random.below(places.len())];
    match random.below(6) {
        0 if words[at] != 0 => words[at] = -words[at],
        1 if words[at] != 0 => words[at] = random.literal(12),
        2 if at >= n => words[at] = if words[at] == 0 { random.literal(12) } else { 0 },
        3 => hints.insert(hint, place),
        4 if hint < hints.len() => hints[hint] = random.below(words.len() + 2) as u32,
        _ if hint < hints.len() => drop(hints.remove(hint)),
        _ => hints.push(place),
    }
}

/// Lemmas of every kind with hints of every kind: random ones, and those of another list.
#[test]
fn what_can_be_satisfied_is_never_refuted() {
    let mut random = Random(24);
    let (other, form) = unsatisfiable(&mut random, 1).remove(0);
    let found = assert_refuted("another list", &other, &drat(&dimacs(&other), form).1);
    for _ in 0..300 {
        let list = satisfiable_list(&mut random);
        assert!(!check::refuted(&with_lemmas(&list, &found.lemmas), list.len(), &found.hints));
        for _ in 0..30 {
            let (variables, clauses) = (1 + random.below(12), random.below(8));
            let mut words = with_lemmas(&list, &random.list(variables, clauses));
            words.push(0);
            let places = beginnings(&words);
            let hints = 1 + random.below(40);
            let hints: Vec<u32> = (0..hints).map(|_| hint(&mut random, &places)).collect();
            assert!(!check::refuted(&words, list.len(), &hints), "{:?} {:?}", words, hints);
        }
    }
}

/// Mostly a place where a clause begins.
fn hint(random: &mut Random, places: &[u32]) -> u32 {
    match random.below(10) {
        0 => random.below(200) as u32,
        _ => places[random.below(places.len())],
    }
}

/// Files of random steps, and cadical's file with steps left out, damaged and put in: whatever is found is accepted, and nothing is found
/// for a list that can be satisfied.
#[test]
fn what_any_file_gives_is_accepted() {
    let mut random = Random(25);
    let (mut found, mut not_found) = (0, 0);
    for (list, _) in unsatisfiable(&mut random, 40) {
        let (_, file) = drat(&dimacs(&list), TEXT);
        let file = String::from_utf8(file).unwrap();
        for _ in 0..25 {
            let damaged = damaged_steps(&mut random, &file);
            let other = satisfiable_list(&mut random);
            assert!(refuted_by(&other, damaged.as_bytes()).is_err(), "{:?}\n{}", other, damaged);
            match refuted_by(&list, damaged.as_bytes()) {
                Ok(_) => {
                    assert_refuted(&damaged, &list, damaged.as_bytes());
                    found += 1;
                }
                Err(Why::NotRup(_) | Why::NoEmptyClause | Why::Variable(_)) => not_found += 1,
                Err(why) => panic!("{}: {}", damaged, why),
            }
        }
    }
    assert!(found > 100 && not_found > 100, "{} found and {} not found are no test", found, not_found);
}

fn damaged_steps(random: &mut Random, file: &str) -> String {
    let mut steps: Vec<String> = file.lines().map(str::to_string).collect();
    for _ in 0..1 + random.below(4) {
        let at = random.below(steps.len() + 1);
        let clause: Vec<String> = (0..random.below(4)).map(|_| random.literal(13).to_string() + " ").collect();
        match random.below(4) {
            0 => steps.insert(at, clause.concat() + "0"),
            1 => steps.insert(at, format!("d {}0", clause.concat())),
            2 if at < steps.len() => steps.insert(at, steps[at].replacen("d ", "", 1)),
            _ if at < steps.len() => drop(steps.remove(at)),
            _ => steps.reverse(),
        }
    }
    steps.join("\n")
}
