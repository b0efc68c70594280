//! Graphs as lists of arrows, in the order in which a search takes them.

/// An arrow from one point to another.
pub type Arrow = (usize, usize);

/// So many arrows that share no point.
pub fn unrelated(many: usize) -> Vec<Arrow> {
    (0..many).map(|i| (2 * i, 2 * i + 1)).collect()
}

/// A ring of so many arrows.
pub fn ring(many: usize) -> Vec<Arrow> {
    (0..many).map(|i| (i, (i + 1) % many)).collect()
}

/// A path of so many arrows.
pub fn path(many: usize) -> Vec<Arrow> {
    (0..many).map(|i| (i, i + 1)).collect()
}

/// Arrows between any two of so many points, from the earlier to the later.
pub fn clique(points: usize) -> Vec<Arrow> {
    let from = |i: usize| (i + 1..points).map(move |j| (i, j));
    (0..points).flat_map(from).collect()
}

/// The first so many arrows of a clique of six: no ring.
pub fn one_way(many: usize) -> Vec<Arrow> {
    clique(6).into_iter().take(many).collect()
}

/// So many arrows into one point.
pub fn star(many: usize) -> Vec<Arrow> {
    (1..=many).map(|i| (i, 0)).collect()
}

/// Six points in three parts, arrows from any to any of a later part: no clique of four.
pub fn three_parts(many: usize) -> Vec<Arrow> {
    let apart = |&(i, j): &Arrow| i / 2 != j / 2;
    clique(6).into_iter().filter(apart).take(many).collect()
}

/// Points of two sides, arrows between the sides, there and back: no ring of odd length.
pub fn both_ways(many: usize) -> Vec<Arrow> {
    let pairs = (0..2).flat_map(|i| (2..5).map(move |j| (i, j)));
    let arrows = pairs.flat_map(|(i, j)| [(i, j), (j, i)]);
    arrows.take(many).collect()
}

/// So many leaves of one point, which then stands in a ring of two: placed, the point leaves every
/// leaf many places, and none of them has to do with the ring.
pub fn leaves_then_ring(many: usize) -> Vec<Arrow> {
    let leaves: Vec<Arrow> = (0..many).map(|i| (0, i + 2)).collect();
    [leaves, vec![(0, 1), (1, 0)]].concat()
}

/// How far the points of a graph are numbered.
pub fn points(graph: &[Arrow]) -> usize {
    let last = graph.iter().map(|&(a, b)| a.max(b));
    last.max().map_or(0, |last| last + 1)
}

/// The first graph, then the second on points of its own.
pub fn before(first: Vec<Arrow>, second: Vec<Arrow>) -> Vec<Arrow> {
    let by = points(&first);
    let moved = second.into_iter().map(|(a, b)| (a + by, b + by));
    first.into_iter().chain(moved).collect()
}

/// The two graphs on points of their own, an arrow of the one and an arrow of the other in turn.
pub fn between(first: Vec<Arrow>, second: Vec<Arrow>) -> Vec<Arrow> {
    let (many, mut both) = (first.len(), before(first, second));
    let mut later = both.split_off(many).into_iter();
    let turns = both
        .into_iter()
        .flat_map(|arrow| [Some(arrow), later.next()]);
    let turns: Vec<Arrow> = turns.flatten().collect();
    turns.into_iter().chain(later).collect()
}

/// Every other arrow first, so that neighbours come late.
pub fn scattered(arrows: Vec<Arrow>) -> Vec<Arrow> {
    let even = arrows.iter().step_by(2);
    even.chain(arrows.iter().skip(1).step_by(2))
        .copied()
        .collect()
}

/// The last arrow first.
pub fn backwards(mut arrows: Vec<Arrow>) -> Vec<Arrow> {
    arrows.reverse();
    arrows
}
