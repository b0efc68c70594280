//! Graphs drawn from those that are hard to place or hard to place on.

use super::graphs::*;
use crate::random::Random;

/// A part that hangs together, of at least one arrow and at most so many.
pub fn part(most: usize, random: &mut Random) -> Vec<Arrow> {
    let many = random.between(most.min(2), most);
    match random.below(7) {
        0 | 1 => ring(many),
        2 => path(many),
        3 => clique(points_of_clique(many)),
        4 => star(many),
        5 => leaves_then_ring(many.saturating_sub(2)).split_off(2 - many.min(2)),
        _ => dense(many, random),
    }
}

/// The most points of which a clique has at most so many arrows.
fn points_of_clique(arrows: usize) -> usize {
    (2..6)
        .rev()
        .find(|n| n * (n - 1) / 2 <= arrows)
        .unwrap_or(2)
}

/// So many arrows between few points, some of them twice.
pub fn dense(many: usize, random: &mut Random) -> Vec<Arrow> {
    let points = random.between(2, 6);
    let arrow = |_| (random.below(points), random.below(points));
    numbered((0..many).map(arrow).collect())
}

/// The graph with its points numbered as they come, so that none is left out: a book has no
/// variables to spare.
fn numbered(arrows: Vec<Arrow>) -> Vec<Arrow> {
    let mut met = Vec::new();
    let mut number = |point: usize| {
        let known = met.iter().position(|&other| other == point);
        known.unwrap_or_else(|| {
            met.push(point);
            met.len() - 1
        })
    };
    let arrows = arrows.into_iter();
    arrows.map(|(a, b)| (number(a), number(b))).collect()
}

/// A part, and so many arrows in all: those that have nothing to do with it stand before it,
/// between its arrows or after them.
pub fn part_among_unrelated(many: usize, random: &mut Random) -> Vec<Arrow> {
    let part = part(many, random);
    let others = unrelated(many - part.len());
    match random.below(5) {
        0 => between(others, part),
        1 => before(part, others),
        _ => before(others, part),
    }
}

/// A graph of at most so many arrows to place others on.
pub fn ground(many: usize, random: &mut Random) -> Vec<Arrow> {
    match random.below(8) {
        0 | 1 => one_way(many),
        2 => three_parts(many),
        3 => both_ways(many),
        4 => ring(many),
        5 => two_rings(many, random),
        6 => path(many),
        _ => dense(many, random),
    }
}

/// Two rings of so many arrows together: a ring goes round one of them only if its length is a
/// multiple of that one's.
fn two_rings(many: usize, random: &mut Random) -> Vec<Arrow> {
    let first = random.between(1, many.max(2) - 1);
    let second = many.saturating_sub(first).max(1);
    before(ring(first), ring(second))
}

/// The arrows in another order, or in theirs.
pub fn reordered(arrows: Vec<Arrow>, random: &mut Random) -> Vec<Arrow> {
    match random.below(5) {
        0 => scattered(arrows),
        1 => backwards(arrows),
        2 => shuffled(arrows, random),
        _ => arrows,
    }
}

/// The things in any order.
pub fn shuffled<T>(mut things: Vec<T>, random: &mut Random) -> Vec<T> {
    for last in (1..things.len()).rev() {
        things.swap(last, random.below(last + 1));
    }
    things
}
