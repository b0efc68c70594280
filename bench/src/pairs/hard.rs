//! Hard shapes: a pair of graphs each, an atom of one relation for each arrow.

use crate::task::{Bytes, Pace, Task, Work};
use second::edges::graphs::*;
use second::edges::{Drawn, Filling};
use second::term::Question;
use second::union::record;
use second::width::Width;

/// The graphs' records have room for four places.
const WIDTH: Width = Width::Four;

/// The hard shapes; the number in a name is how many atoms the second record has.
pub fn tasks() -> Vec<Task> {
    [after_unrelated(), after_leaves(), late(), same()]
        .into_iter()
        .flatten()
        .collect()
}

/// Arrows that have nothing to do with the part that fails, before it.
fn after_unrelated() -> Vec<Task> {
    let then = |many, last| before(unrelated(many), last);
    let (quick, heavy, slow) = (Pace::Ordinary, Pace::Heavy, Pace::Slow);
    vec![
        hard("unrelated-then-ring-8", quick, then(6, ring(2)), one_way(8)),
        hard("unrelated-then-ring-9", heavy, then(7, ring(2)), one_way(9)),
        hard(
            "unrelated-then-ring-11",
            slow,
            then(7, ring(2)),
            one_way(11),
        ),
        hard(
            "unrelated-then-square-11",
            slow,
            then(7, ring(4)),
            one_way(11),
        ),
        hard("clique-8", quick, then(2, clique(4)), three_parts(8)),
        hard("clique-11", quick, then(1, clique(5)), three_parts(11)),
    ]
}

/// Arrows that hang on the part that fails, but by one point that is placed before.
fn after_leaves() -> Vec<Task> {
    let (name, pace) = ("leaves-then-ring", Pace::Ordinary);
    vec![
        hard(&format!("{name}-8"), pace, leaves_then_ring(6), one_way(8)),
        hard(
            &format!("{name}-11"),
            pace,
            leaves_then_ring(9),
            one_way(11),
        ),
    ]
}

/// Rings and paths that fail only when their last arrows come.
fn late() -> Vec<Task> {
    let pace = Pace::Ordinary;
    vec![
        hard("scattered-ring-8", pace, scattered(ring(7)), both_ways(8)),
        hard("scattered-ring-11", pace, scattered(ring(9)), both_ways(11)),
        hard("path-8", pace, backwards(path(8)), one_way(8)),
        hard("path-11", pace, backwards(path(11)), one_way(11)),
    ]
}

/// Dense graphs that are the same, in other orders: the answer is yes.
fn same() -> Vec<Task> {
    let same = |name, many| {
        let (first, second) = (scattered(one_way(many)), backwards(one_way(many)));
        hard(name, Pace::Ordinary, first, second)
    };
    vec![same("same-8", 8), same("same-11", 11)]
}

/// One pair, asked in this order.
fn hard(name: &str, pace: Pace, first: Vec<Arrow>, second: Vec<Arrow>) -> Task {
    let records = (graph(&first, 2, WIDTH), graph(&second, 2, WIDTH));
    Task {
        kind: "covering, shapes",
        name: format!("pair-{name}"),
        rules: 0,
        pace,
        work: Work::Covers(WIDTH, vec![records]),
    }
}

/// The record with an atom of so many places for each arrow, in the places after the second
/// variables of their own.
pub fn graph(arrows: &[Arrow], places: usize, width: Width) -> Bytes {
    let drawn = Drawn {
        relation: 0,
        places,
        filling: Filling::Apart,
    };
    record(&Question::boolean(drawn.atoms(arrows)), width)
}
