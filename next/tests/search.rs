//! The search for a shortest run: verdicts with every solver, against what is told of the shipped models, and the edge of the bounds.

mod common;

use common::{installed, model, model_text, wirdoku, wirdoku_with_input, with_path, Folder, SOLVERS};
use wirdoku_next::cubes;
use wirdoku_next::library::{self, Shape};

/// The lines of a table of expected numbers, in columns.
fn table(name: &str) -> Vec<Vec<String>> {
    model_text(name).lines().skip(1).map(|line| line.split('\t').map(str::to_string).collect()).collect()
}

/// The files of every shipped model and pair, and the length of its shortest run.
fn shipped() -> Vec<(Vec<String>, String)> {
    let file = |name: &String| model(&format!("{}.txt", name));
    let models = table("EXPECTED.tsv").into_iter().map(|line| (vec![file(&line[0])], line[1].clone()));
    let pairs = table("PAIRS.tsv").into_iter().map(|line| (vec![file(&line[0]), file(&line[1])], line[2].clone()));
    models.chain(pairs).collect()
}

/// Pairs without a run are looked at up to a bound of their own, since they take some solvers seconds.
fn assert_verdicts(solver: &str, pairs_up_to: &str) {
    for (files, smallest) in shipped() {
        let up_to = if files.len() == 2 && smallest == "none" { pairs_up_to } else { "64" };
        let mut arguments = vec!["check", "--quiet", "--solver", solver, "--up-to", up_to];
        arguments.extend(files.iter().map(String::as_str));
        let outcome = wirdoku(&arguments);
        let (status, first) = match smallest.as_str() {
            "none" => (20, format!("no run of at most {} steps; longer runs were not looked at", up_to)),
            "1" => (10, "a run of 1 step reaches the target".to_string()),
            steps => (10, format!("a run of {} steps reaches the target", steps)),
        };
        assert_eq!((outcome.status, outcome.out.lines().next()), (status, Some(first.as_str())), "{:?}", files);
        let last = outcome.out.lines().last().unwrap();
        assert!(smallest == "1" || last.contains(&format!("the word of {}, which is not checked)", solver)), "{}", last);
    }
}

#[test]
fn the_tables_are_as_long_as_they_should_be() {
    let shipped = shipped();
    assert!(shipped.len() >= 13 && shipped.iter().filter(|(_, smallest)| smallest == "none").count() >= 2);
}

#[test]
fn verdicts_of_picosat() {
    assert_verdicts("picosat", "32");
}

#[test]
fn verdicts_of_minisat() {
    assert_verdicts("minisat", "32");
}

#[test]
fn verdicts_of_cadical() {
    assert_verdicts("cadical", "64");
}

/// The same solvers by a path and with an argument, as another program would be given.
#[test]
fn verdicts_of_other_programs() {
    assert_verdicts(installed("picosat").to_str().unwrap(), "16");
    assert_verdicts("cadical -q", "16");
}

/// A counter goes from `start` to 31, then from 0 to 31, an edge a step, and then there are `more` edges to the target: one in each
/// step, so that the shortest run has `63 - start + more` steps.
fn counted(start: usize, more: usize) -> String {
    let edge = |from: usize, to: usize, when: &str, set: &str| {
        format!("from={}\nto={}\nlabel=0\nwhen={}\nset={}\nreset=-\n", from, to, when, set)
    };
    let mut edges = vec![edge(0, 0, "-", "v0:=v0+1"), edge(0, 0, "v0=31,v1=0", "v0:=0,v1:=1"), edge(0, 1, "v0=31,v1=1", "-")];
    edges.extend((1..more).map(|place| edge(place, place + 1, "-", "-")));
    let head = format!("locations={}\ninit=0\ntarget={}\nclocks=0\nvars=2\nvar=31,{}\nvar=1,0\n", more + 1, more, start);
    format!("{}{}edges={}\n{}", head, "inv=-\n".repeat(more + 1), edges.len(), edges.concat())
}

/// The longest run that the bounds reach, and one that is a step too long.
#[test]
fn runs_at_the_edge_of_the_bounds() {
    for solver in SOLVERS {
        let check = |text: &str, further: &[&str]| {
            let arguments = [&["check", "-", "--quiet", "--solver", solver], further].concat();
            let outcome = wirdoku_with_input(&arguments, text.as_bytes());
            (outcome.status, outcome.out.lines().next().unwrap().to_string())
        };
        let found = |steps: usize| (10, format!("a run of {} steps reaches the target", steps));
        let none = |steps: usize| (20, format!("no run of at most {} steps; longer runs were not looked at", steps));
        assert_eq!(check(&counted(0, 1), &[]), found(64), "{}", solver);
        assert_eq!(check(&counted(0, 2), &[]), none(64), "{}", solver);
        let text = counted(26, 1);
        assert_eq!(check(&text, &["--up-to", "38"]), found(38), "{}", solver);
        assert_eq!(check(&text, &["--up-to", "37"]), none(37), "{}", solver);
        assert_eq!(check(&text, &["--bound", "38"]), found(38), "{}", solver);
        let exactly = "no run of exactly 37 steps, so none of fewer; longer runs were not looked at".to_string();
        assert_eq!(check(&text, &["--bound", "37"]), (20, exactly), "{}", solver);
    }
}

/// The run for 4 steps of the logger, with a clause added: it is in the target after 3 steps, and then 3 need not be asked about; or it
/// begins with a delay of 0, and then they do.
#[test]
fn a_run_that_is_in_the_target_earlier_is_cut() {
    for (clause, asked) in [("61", "124"), ("12", "1243")] {
        let folder = Folder::new();
        let four = format!("{{ echo 'p cnf 87 558'; /bin/cat; echo '{} 0'; }}", clause);
        let lines = format!(
            "read -r first\ncase \"$first\" in\n'p cnf 87 557') {} ;;\n*) {{ echo \"$first\"; /bin/cat; }} ;;\nesac | '{}'",
            four,
            installed("picosat").display()
        );
        folder.script("picosat", &lines);
        let outcome = with_path(&folder, &["check", &model("logger_b.txt")]);
        assert!(outcome.status == 10 && outcome.out.contains("\nstep bytes: 5 3 7\n"), "{:?}", outcome);
        let bounds = outcome.err.lines().map(|line| line.strip_prefix("bound ").unwrap().split(':').next().unwrap());
        assert_eq!(bounds.collect::<String>(), asked);
    }
}

/// What is found out, as fields: the bounds that were asked for, the one that has no run, and the run.
#[test]
fn fields_of_answers() {
    let closed = model_text("a.txt").replace("from=0", "from=1");
    let started = model_text("a.txt").replace("init=0", "init=1");
    let broken = model_text("a.txt").replace("clocks=0", "clocks=1").replacen("inv=-", "inv=x0>=1", 1);
    let open = model_text("a.txt");
    let fields = |verdict: &str, numbers: [&str; 4], solver: &str| {
        let [bound, exactly, up_to, none] = numbers;
        // bound 0 is decided by the proved walker, and these calls ask for no refutation
        let checked = if none == "null" { "null" } else { ["false", "true"][usize::from(none == "0")] };
        let asked = format!("\"exactly\": {}, \"up_to\": {}, \"none_up_to\": {}", exactly, up_to, none);
        let asked = format!("{}, \"none_checked\": {}", asked, checked);
        format!("\"verdict\": \"{}\", \"bound\": {}, {}, \"solver\": {}, \"milliseconds\": ", verdict, bound, asked, solver)
    };
    let (null, cadical) = ("null", "\"cadical\"");
    for (text, bounds, expected, run) in [
        (&open, &[][..], fields("run", ["1", null, "64", "0"], cadical), "[2]"),
        (&open, &["--bound", "1"], fields("run", ["1", "1", null, null], cadical), "[2]"),
        (&open, &["--bound", "0"], fields("no run", [null, "0", null, "0"], cadical), null),
        (&open, &["--up-to", "0"], fields("no run", [null, null, "0", "0"], null), null),
        (&closed, &["--up-to", "7"], fields("no run", [null, null, "7", "7"], cadical), null),
        (&closed, &["--bound", "7"], fields("no run", [null, "7", null, "7"], cadical), null),
        (&started, &[], fields("run", ["0", null, "64", null], null), "[]"),
        (&broken, &["--up-to", "7"], fields("no run at all", [null, null, "7", null], null), null),
    ] {
        let arguments = [&["check", "-", "--quiet", "--json"], bounds].concat();
        let outcome = wirdoku_with_input(&arguments, text.as_bytes());
        assert!(outcome.out.contains(&expected), "{:?} {}", outcome, expected);
        assert!(outcome.out.contains(&format!(", \"run\": {}", run)), "{:?} {}", outcome, run);
    }
}

/// What the library writes for a bound: the text of a model, or of two.
fn written(texts: &[String], bound: usize) -> Vec<u8> {
    let write = |out: &mut [u8]| match texts {
        [text] => library::dimacs(text.as_bytes(), bound, out),
        _ => library::pair_dimacs(texts[0].as_bytes(), texts[1].as_bytes(), bound, out),
    };
    let mut file = vec![0; write(&mut []).bytes];
    assert_eq!(write(&mut file).number, 0);
    file
}

fn shape(texts: &[String]) -> Shape {
    match texts {
        [text] => library::shape(text.as_bytes()),
        _ => library::pair_shape(texts[0].as_bytes(), texts[1].as_bytes()),
    }
}

/// A cube is the last clause of its bound's file, and what comes before it in that file is what the last bound's begins with.
#[test]
fn cubes_are_the_last_clauses_of_the_files() {
    for (files, _) in shipped() {
        let texts: Vec<String> = files.iter().map(|file| std::fs::read_to_string(file).unwrap()).collect();
        let shape = shape(&texts);
        let longest = String::from_utf8(written(&texts, 64)).unwrap();
        let clauses = longest.split_once('\n').unwrap().1;
        for bound in 0..=64 {
            let file = String::from_utf8(written(&texts, bound)).unwrap();
            let target = format!("{} 0\n", cubes::target(&shape, bound));
            let rest = file.strip_suffix(&target).unwrap_or_else(|| panic!("{:?} at {}", files, bound));
            assert!(rest.ends_with('\n') && clauses.starts_with(rest.split_once('\n').unwrap().1), "{:?} at {}", files, bound);
        }
        let cubes = String::from_utf8(cubes::file(&shape, 64, longest.as_bytes())).unwrap();
        let (first, rest) = cubes.split_once('\n').unwrap();
        let (kept, targets) = rest.split_at(rest.find("a ").unwrap());
        assert_eq!((first, format!("{}{} 0\n", kept, cubes::target(&shape, 64))), ("p inccnf", clauses.to_string()));
        let expected: String = (1..=64).map(|bound| format!("a {} 0\n", cubes::target(&shape, bound))).collect();
        assert_eq!(targets, expected);
    }
}
