//! The questions of edge books.

use super::graphs::*;
use super::parts::{part_among_unrelated, reordered};
use crate::random::Random;

/// So many arrows to ask for.
pub fn asked(many: usize, random: &mut Random) -> Vec<Arrow> {
    match random.below(8) {
        0 | 1 => unrelated(many),
        2 => star(many),
        3 | 4 => held(many),
        5 => reordered(ring(many), random),
        _ => part_among_unrelated(many, random),
    }
}

/// All but one into one point, and the last from it: left, the last holds the point, and sent, it
/// puts a frontier variable beside the unknown. Only whole choices tell.
pub fn held(many: usize) -> Vec<Arrow> {
    let mut arrows = star(many - 1);
    arrows.push((0, many));
    arrows
}
