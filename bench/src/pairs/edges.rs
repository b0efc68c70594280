//! Edge pairs, each of two records of eleven atoms.

use super::hard::graph;
use crate::task::{Pace, Task, Work};
use second::edges::graphs::*;
use second::width::Width;

/// The pairs, by name; the answer is no but where the name says that it is the same.
pub fn tasks() -> Vec<Task> {
    let four = Width::Four;
    vec![
        edge("odd-ring-on-both-ways", four, odd_ring(), both_ways(11)),
        edge(
            "unrelated-then-odd-ring",
            four,
            before(unrelated(6), ring(5)),
            both_ways(11),
        ),
        edge(
            "ring-then-unrelated",
            four,
            before(ring(5), unrelated(6)),
            both_ways(11),
        ),
        edge(
            "unrelated-between",
            four,
            between(unrelated(7), ring(4)),
            one_way(11),
        ),
        edge(
            "ring-on-two-rings",
            four,
            scattered(ring(11)),
            before(ring(5), ring(6)),
        ),
        edge(
            "leaves-scattered",
            four,
            scattered(leaves_then_ring(9)),
            one_way(11),
        ),
        edge("path-too-long", four, scattered(path(11)), path(10)),
        edge(
            "new-clique",
            Width::Six,
            before(unrelated(1), clique(5)),
            three_parts(11),
        ),
        edge(
            "new-odd-ring-on-both-ways",
            Width::Six,
            odd_ring(),
            both_ways(11),
        ),
        edge(
            "new-same",
            Width::Six,
            scattered(one_way(11)),
            backwards(one_way(11)),
        ),
    ]
}

/// A ring of eleven, neighbours late: it has no place where every ring is even.
fn odd_ring() -> Vec<Arrow> {
    scattered(ring(11))
}

/// One pair, every place of its atoms used.
fn edge(name: &str, width: Width, first: Vec<Arrow>, second: Vec<Arrow>) -> Task {
    let record = |arrows: &[Arrow]| graph(arrows, width.places(), width);
    Task {
        kind: "edges, pairs",
        name: format!("edges-pair-{name}"),
        rules: 0,
        pace: Pace::Ordinary,
        work: Work::Covers(width, vec![(record(&first), record(&second))]),
    }
}
