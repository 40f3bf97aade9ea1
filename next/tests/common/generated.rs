//! Random numbers and random model texts, the same ones at each run.

/// Numbers by the method of Marsaglia's xorshift.
pub struct Random(u64);

impl Random {
    pub fn new(seed: u64) -> Random {
        Random(seed.wrapping_mul(0x9e37_79b9_7f4a_7c15) | 1)
    }

    /// A number below a limit, which is not 0.
    pub fn below(&mut self, limit: usize) -> usize {
        self.0 ^= self.0 << 13;
        self.0 ^= self.0 >> 7;
        self.0 ^= self.0 << 17;
        (self.0 >> 16) as usize % limit
    }

    pub fn chance(&mut self, one_in: usize) -> bool {
        self.below(one_in) == 0
    }

    pub fn pick<T: Clone>(&mut self, items: &[T]) -> T {
        items[self.below(items.len())].clone()
    }
}

/// What a generated model declares.
struct Sizes {
    locations: usize,
    clocks: usize,
    counters: usize,
}

/// A text that is accepted. Any two of them compose: no limit is passed together.
pub fn text(random: &mut Random) -> String {
    let sizes = Sizes { locations: 1 + random.below(4), clocks: random.below(3), counters: random.below(3) };
    let Sizes { locations, clocks, counters } = sizes;
    let (initial, target) = (random.below(locations), random.below(locations));
    let mut text = format!("locations={locations}\ninit={initial}\ntarget={target}\nclocks={clocks}\nvars={counters}\n");
    for _ in 0..counters {
        let greatest = random.below(4);
        text.push_str(&format!("var={},{}\n", greatest, random.below(greatest + 1)));
    }
    for _ in 0..locations {
        let atoms: Vec<String> = (0..random.below(3)).filter_map(|_| clock_atom(random, clocks)).collect();
        text.push_str(&format!("inv={}\n", list(&atoms)));
    }
    let edges = random.below(5);
    text.push_str(&format!("edges={}\n", edges));
    for _ in 0..edges {
        text.push_str(&edge(random, &sizes));
    }
    text
}

fn list(items: &[String]) -> String {
    match items {
        [] => "-".to_string(),
        _ => items.join(","),
    }
}

fn clock_atom(random: &mut Random, clocks: usize) -> Option<String> {
    let relation = random.pick(&["<", "<=", "<=", "=", ">=", ">"]);
    (clocks > 0).then(|| format!("x{}{}{}", random.below(clocks), relation, random.below(5)))
}

fn counter_atom(random: &mut Random, counters: usize) -> Option<String> {
    let relation = random.pick(&["<", "<=", "=", ">=", ">", "!="]);
    (counters > 0).then(|| format!("v{}{}{}", random.below(counters), relation, random.below(5)))
}

fn edge(random: &mut Random, sizes: &Sizes) -> String {
    let (source, target) = (random.below(sizes.locations), random.below(sizes.locations));
    let guard: Vec<String> = (0..random.below(3))
        .filter_map(|_| match random.chance(2) {
            true => clock_atom(random, sizes.clocks),
            false => counter_atom(random, sizes.counters),
        })
        .collect();
    let (updates, resets) = (updates(random, sizes.counters), resets(random, sizes.clocks));
    let label = random.below(3);
    let lines = [format!("when={}", list(&guard)), format!("set={}", list(&updates)), format!("reset={}", list(&resets))];
    format!("from={}\nto={}\nlabel={}\n{}\n", source, target, label, lines.join("\n"))
}

/// Each counter at most once, in either order.
fn updates(random: &mut Random, counters: usize) -> Vec<String> {
    let mut set: Vec<usize> = (0..counters).filter(|_| random.chance(2)).collect();
    if random.chance(2) {
        set.reverse();
    }
    let value = |random: &mut Random| match random.below(3) {
        0 => random.below(5).to_string(),
        1 => format!("v{}+{}", random.below(counters), random.below(3)),
        _ => format!("v{}-{}", random.below(counters), 1 + random.below(2)),
    };
    set.iter().map(|counter| format!("v{}:={}", counter, value(random))).collect()
}

fn resets(random: &mut Random, clocks: usize) -> Vec<String> {
    let set: Vec<usize> = (0..clocks).filter(|_| random.chance(2)).collect();
    let item = |clock: &usize| match random.chance(2) {
        true => format!("x{}", clock),
        false => format!("x{}:=x{}", clock, random.below(clocks)),
    };
    set.iter().map(item).collect()
}
