//! The rules of edge books: heads that many question atoms can be sent to in many ways.

use super::atoms::Drawn;
use super::graphs::*;
use super::parts::part;
use crate::random::Random;
use crate::term::{Atom, Rule, Term};

/// A head before its atoms are drawn. Points from `known` on stand in no body: they are unknowns.
#[derive(Clone, Debug)]
pub struct Head {
    pub arrows: Vec<Arrow>,
    pub known: usize,
}

/// A head of these arrows.
fn head(arrows: Vec<Arrow>, known: usize) -> Head {
    Head { arrows, known }
}

/// The most atoms of a head.
const MOST: usize = 4;

/// A head to which every atom that shares nothing may go in every way.
pub fn loose() -> Head {
    head((0..MOST).map(|i| (i, i + MOST)).collect(), MOST)
}

/// Each atom has an unknown of its own: atoms that share a variable go together or not at all.
fn own_unknowns() -> Head {
    head((0..MOST).map(|i| (0, i + 1)).collect(), 1)
}

/// One unknown in all atoms: what shares a variable goes in every way, unless it is held.
fn one_unknown() -> Head {
    head((0..MOST).map(|i| (i, MOST)).collect(), MOST)
}

/// Atoms that are all one: what is sent there becomes one, and of two constants none may.
fn equal() -> Head {
    head(vec![(0, 1); MOST], 2)
}

/// There and back.
pub fn turned() -> Head {
    head(ring(2), 2)
}

/// Four arrows that go one way round and not the other.
pub fn square() -> Head {
    head(vec![(0, 1), (1, 2), (2, 3), (0, 3)], 4)
}

/// A head in which everything meets.
fn knot() -> Head {
    head(vec![(0, 1), (1, 0), (0, 0), (1, 1)], 2)
}

/// A path through unknowns, and an arrow beside it.
fn grown() -> Head {
    head(vec![(0, 4), (4, 5), (5, 1), (2, 3)], 4)
}

/// Some head, now and then with other unknowns than it is known for.
pub fn any(random: &mut Random) -> Head {
    let mut head = match random.below(10) {
        0 | 1 => loose(),
        2 => own_unknowns(),
        3 => one_unknown(),
        4 => equal(),
        5 => turned(),
        6 => square(),
        7 => knot(),
        8 => grown(),
        _ => head(part(MOST, random), MOST),
    };
    if random.percent(15) {
        head.known = random.below(MOST + 1);
    }
    head.known = head.known.min(points(&head.arrows));
    head
}

/// Whatever follows the head's points in the body: arrows of the same relation, so that a rewriting
/// has many of them.
pub fn more_body(random: &mut Random) -> Vec<Arrow> {
    match random.below(8) {
        0 => unrelated(random.between(1, 3)),
        1 => unrelated(3),
        2 => part(3, random),
        _ => Vec::new(),
    }
}

/// The rule with this head, whose body has an atom of the relation `by` with the points that are
/// known, then those arrows on points of their own.
pub fn rule(head: &Head, more: &[Arrow], drawn: Drawn, by: (usize, usize)) -> Rule {
    let (relation, places) = by;
    let arrows = before(head.arrows.clone(), more.to_vec());
    let mut atoms = drawn.atoms(&arrows);
    let more = atoms.split_off(head.arrows.len());
    let known = |i: usize| Term::Variable(i % head.known.max(1));
    let mut body = Vec::new();
    if head.known > 0 {
        body.push(Atom::new(relation, (0..places).map(known).collect()));
    }
    body.extend(more);
    Rule { body, head: atoms }
}
