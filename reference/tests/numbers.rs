//! The numbers of solver variables: worked ones, the greatest, and all members in the document's order.

use reference::gen::models::{largest, model, model_a, model_b, Size};
use reference::gen::rng::Rng;
use reference::model::{variables, Model};
use reference::numbering::Numbering;

/// State 0, then for each step its choice block and its state block.
fn in_order(model: &Model, bound: u32) -> Vec<i32> {
    let numbering = Numbering::of(model);
    let state = |t| numbering.state(t).iter().flat_map(|group| group.members().collect::<Vec<_>>()).collect::<Vec<_>>();
    let mut numbers = state(0);
    for t in 1..=bound {
        numbers.extend(numbering.choices(t).members());
        numbers.extend(state(t));
    }
    numbers
}

#[test]
fn worked_numbers_of_model_b() {
    let numbering = Numbering::of(&model_b());
    assert_eq!(numbering.counter(1, 0).member(1), 25);
    assert_eq!(numbering.edge(3, 2), 57);
    assert_eq!(numbering.locations(3).member(3), 61);
    assert_eq!(numbering.clock(3, 0).member(4), 68);
    assert_eq!(variables(&model_b(), 3), 68);
}

#[test]
fn the_greatest_numbers() {
    let numbering = Numbering::of(&largest());
    assert_eq!(numbering.edge(64, 31), 21_504);
    assert_eq!(numbering.locations(64).member(15), 21_520);
    assert_eq!(numbering.clock(64, 3).member(31), 21_776);
}

#[test]
fn members_in_order_are_counted_from_1() {
    let mut rng = Rng::new(1);
    let mut models = vec![model_a(), model_b(), largest()];
    models.extend((0..100).map(|_| model(&mut rng, Size::Full)));
    for model in &models {
        for bound in [0, 1, 2, 64] {
            let expected: Vec<i32> = (1..=variables(model, bound) as i32).collect();
            assert_eq!(in_order(model, bound as u32), expected);
        }
    }
}
