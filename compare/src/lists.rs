//! Lists word for word and files byte for byte: the totals by formula, the emission and the file, with buffers of every sort.

use reference::gen::models::{any_size, model, Size};
use reference::gen::rng::Rng;
use reference::gen::runs::steps;
use reference::model::MAX_BOUND;

use crate::expected::List;
use crate::part::Seeds;
use crate::tally::{Due, Tally};
use crate::texts::written;
use crate::{calls, show};

pub const DUE: Due = &[("counts", &[0, 21]), ("emit", &[0, 21, 22]), ("dimacs", &[0, 21, 32])];

/// Bounds above 64, among them those that are small in their low bits.
const TOO_LARGE: [usize; 10] = [65, 66, 127, 128, 256, 257, 1 << 16, 1 << 32, usize::MAX - 1, usize::MAX];

/// Each bound from 0 to 64 in turn with small models, and any bound with large ones.
pub fn lists(tally: &mut Tally, seeds: Seeds) {
    for seed in seeds.each() {
        let mut rng = Rng::new(seed);
        let size = any_size(&mut rng);
        let text = written(&model(&mut rng, size)).into_boxed_slice();
        let bound = if rng.one_in(10) {
            rng.pick(&TOO_LARGE)
        } else if size == Size::Full {
            steps(&mut rng)
        } else {
            seed as usize % (MAX_BOUND + 1)
        };
        let needed = List::of_text(&text, bound).counts.words;
        let rooms = [needed, needed + 1, needed + 2 + rng.below(60), needed.saturating_sub(1), 0];
        calls::list(tally, seed, &text, bound, &rooms);
        tally.case(|| format!("seed {seed} text {} bound {bound} rooms {rooms:?}", show::text(&text)));
        if tally.stopped() {
            return;
        }
    }
}
