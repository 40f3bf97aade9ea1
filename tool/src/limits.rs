//! Which limits a composed model would pass, for the message of refusal 38. That it is refused is the library's answer; what is said here
//! of it is counted from the two texts, which the proved reader has accepted.

pub const LOCATIONS: usize = 16;
pub const CLOCKS: usize = 4;
pub const COUNTERS: usize = 4;
pub const EDGES: usize = 32;
pub const ATOMS: usize = 4;

/// What an accepted text declares: numbers, the atoms of each invariant, and label and atoms of each edge.
#[derive(Default)]
struct Declared {
    locations: usize,
    clocks: usize,
    counters: usize,
    invariants: Vec<usize>,
    edges: Vec<Edge>,
}

struct Edge {
    label: usize,
    atoms: usize,
}

impl Declared {
    fn of(text: &[u8]) -> Declared {
        let mut declared = Declared::default();
        let mut label = 0;
        for line in String::from_utf8_lossy(text).lines() {
            let (key, value) = line.split_once('=').unwrap_or((line, ""));
            let number = value.parse().unwrap_or(0);
            match key {
                "locations" => declared.locations = number,
                "clocks" => declared.clocks = number,
                "vars" => declared.counters = number,
                "inv" => declared.invariants.push(atoms(value)),
                "label" => label = number,
                "when" => declared.edges.push(Edge { label, atoms: atoms(value) }),
                _ => {}
            }
        }
        declared
    }

    fn bears(&self, label: usize) -> bool {
        self.edges.iter().any(|edge| edge.label == label)
    }

    /// The edges that move alone beside another model.
    fn alone(&self, other: &Declared) -> usize {
        self.edges.iter().filter(|edge| edge.label == 0 || !other.bears(edge.label)).count()
    }
}

/// The atoms of an `inv` or `when` value.
fn atoms(value: &str) -> usize {
    match value {
        "-" => 0,
        _ => value.split(',').count(),
    }
}

/// A sentence for each limit that the model composed of two accepted texts would pass.
pub fn passed(first: &[u8], second: &[u8]) -> Vec<String> {
    let (first, second) = (Declared::of(first), Declared::of(second));
    let found = [
        locations(&first, &second),
        sum("clocks", CLOCKS, first.clocks, second.clocks),
        sum("counters", COUNTERS, first.counters, second.counters),
        edges(&first, &second),
        invariant(&first, &second),
        guard(&first, &second),
    ];
    found.into_iter().flatten().collect()
}

fn locations(first: &Declared, second: &Declared) -> Option<String> {
    let (one, other) = (first.locations, second.locations);
    let all = one * other;
    (all > LOCATIONS).then(|| format!("locations: {} times {} are {}, and a model has at most {}", one, other, all, LOCATIONS))
}

fn sum(name: &str, most: usize, one: usize, other: usize) -> Option<String> {
    let all = one + other;
    (all > most).then(|| format!("{}: {} and {} are {}, and a model has at most {}", name, one, other, all, most))
}

fn edges(first: &Declared, second: &Declared) -> Option<String> {
    let (one, other) = (first.alone(second), second.alone(first));
    let pairs = pairs(first, second).count();
    let all = one * second.locations + other * first.locations + pairs;
    (all > EDGES).then(|| {
        format!(
            "edges: {} of the first alone times {} locations, {} of the second alone times {} locations and {} in pairs are {}, \
             and a model has at most {}",
            one, second.locations, other, first.locations, pairs, all, EDGES
        )
    })
}

/// The edges of both that share a label, with their numbers.
fn pairs<'a>(first: &'a Declared, second: &'a Declared) -> impl Iterator<Item = ((usize, &'a Edge), (usize, &'a Edge))> {
    first.edges.iter().enumerate().filter(|(_, edge)| edge.label != 0).flat_map(move |(number, edge)| {
        let partners = second.edges.iter().enumerate().filter(move |(_, other)| other.label == edge.label);
        partners.map(move |partner| ((number, edge), partner))
    })
}

/// The pair of locations with the most atoms, the first of those.
fn invariant(first: &Declared, second: &Declared) -> Option<String> {
    let ((i, one), (j, other)) = (most(&first.invariants)?, most(&second.invariants)?);
    (one + other > ATOMS).then(|| {
        format!(
            "atoms of an invariant: {} in location {} of the first and {} in location {} of the second are {}, and an invariant has \
             at most {}",
            one,
            i,
            other,
            j,
            one + other,
            ATOMS
        )
    })
}

/// The first of the greatest numbers, with its index.
fn most(numbers: &[usize]) -> Option<(usize, usize)> {
    let greatest = numbers.iter().copied().max()?;
    numbers.iter().position(|number| *number == greatest).map(|place| (place, greatest))
}

/// The first pair of edges with too many atoms.
fn guard(first: &Declared, second: &Declared) -> Option<String> {
    let ((e, one), (f, other)) = pairs(first, second).find(|((_, one), (_, other))| one.atoms + other.atoms > ATOMS)?;
    Some(format!(
        "atoms of a guard: {} of edge {} of the first and {} of edge {} of the second, which share label {}, are {}, and a guard has \
         at most {}",
        one.atoms,
        e,
        other.atoms,
        f,
        one.label,
        one.atoms + other.atoms,
        ATOMS
    ))
}

#[cfg(test)]
mod tests {
    use super::passed;

    /// A text that declares so much; each edge has a label and a guard.
    fn text(locations: usize, clocks: usize, vars: usize, inv: &str, edges: &[(usize, &str)]) -> Vec<u8> {
        let head = format!("locations={locations}\ninit=0\ntarget=0\nclocks={clocks}\nvars={vars}\n");
        let (counters, others) = ("var=1,0\n".repeat(vars), "inv=-\n".repeat(locations - 1));
        let lines = |(label, when): &(usize, &str)| format!("from=0\nto=0\nlabel={label}\nwhen={when}\nset=-\nreset=-\n");
        let edge_lines: String = edges.iter().map(lines).collect();
        format!("{head}{counters}{others}inv={inv}\nedges={}\n{edge_lines}", edges.len()).into_bytes()
    }

    fn sentences(first: &[u8], second: &[u8]) -> String {
        passed(first, second).join("\n")
    }

    #[test]
    fn nothing_is_said_where_nothing_is_passed() {
        let (first, second) = (text(4, 2, 4, "x0<1,x1<1", &[(0, "-"); 4]), text(4, 2, 0, "x0<2,x0<3", &[(0, "-"); 4]));
        assert_eq!(sentences(&first, &second), "");
        let (first, second) = (text(1, 2, 0, "-", &[(1, "x0<1,x0<1,x0<1")]), text(1, 2, 0, "-", &[(2, "x0<1,x0<1")]));
        assert_eq!(sentences(&first, &second), "");
    }

    #[test]
    fn locations_clocks_and_counters() {
        let (first, second) = (text(4, 3, 4, "-", &[]), text(5, 2, 1, "-", &[]));
        let expected = "locations: 4 times 5 are 20, and a model has at most 16\n\
                        clocks: 3 and 2 are 5, and a model has at most 4\n\
                        counters: 4 and 1 are 5, and a model has at most 4";
        assert_eq!(sentences(&first, &second), expected);
    }

    #[test]
    fn edges_alone_and_in_pairs() {
        let (first, second) = (text(2, 0, 0, "-", &[(0, "-"); 9]), text(2, 0, 0, "-", &[(4, "-"); 8]));
        let expected = "edges: 9 of the first alone times 2 locations, 8 of the second alone times 2 locations and 0 in pairs \
                        are 34, and a model has at most 32";
        assert_eq!(sentences(&first, &second), expected);
        let (first, second) = (text(2, 0, 0, "-", &[(4, "-"); 3]), text(2, 0, 0, "-", &[(4, "-"); 11]));
        assert!(sentences(&first, &second).contains(" and 33 in pairs are 33, "));
        assert_eq!(sentences(&text(2, 0, 0, "-", &[(4, "-"); 4]), &text(2, 0, 0, "-", &[(4, "-"); 8])), "");
    }

    #[test]
    fn atoms_of_invariants_and_guards() {
        let (first, second) = (text(2, 1, 0, "x0<1,x0<1,x0<1", &[]), text(3, 1, 0, "x0<2,x0<3", &[]));
        let expected = "atoms of an invariant: 3 in location 1 of the first and 2 in location 2 of the second are 5, and an \
                        invariant has at most 4";
        assert_eq!(sentences(&first, &second), expected);
        let edges = [(0, "x0<1,x0<1,x0<1,x0<1"), (3, "x0<1,x0<1,x0<1")];
        let (first, second) = (text(1, 1, 0, "-", &edges), text(1, 1, 0, "-", &[(3, "-"), (3, "x0<2,x0<3")]));
        let expected = "atoms of a guard: 3 of edge 1 of the first and 2 of edge 1 of the second, which share label 3, are 5, \
                        and a guard has at most 4";
        assert_eq!(sentences(&first, &second), expected);
    }
}
