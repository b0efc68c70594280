//! Covering, by trying every placement of atoms on atoms.

use crate::budget;
use crate::term::{Atom, Question, Term};

/// A map of variables to terms, as the pairs that were put into it, no variable in two. A
/// variable that is in none has no image yet. What was put last is taken back first.
#[derive(Clone, Debug, Default)]
pub struct Map {
    pairs: Vec<(usize, Term)>,
}

impl Map {
    /// The image of a variable, if it has one.
    pub fn image(&self, variable: usize) -> Option<Term> {
        let pair = self.pairs.iter().find(|(v, _)| *v == variable);
        pair.map(|(_, image)| *image)
    }

    /// The variables that have an image, each with it, in the order in which they got it.
    pub fn images(&self) -> &[(usize, Term)] {
        &self.pairs
    }

    /// Gives an image to a variable that has none.
    pub fn put(&mut self, variable: usize, image: Term) {
        self.pairs.push((variable, image));
    }

    /// The map on some of its variables alone.
    pub fn only(&self, such: impl Fn(usize) -> bool) -> Map {
        let pairs = self.pairs.iter().filter(|(v, _)| such(*v));
        Map {
            pairs: pairs.copied().collect(),
        }
    }

    /// Tries something that may put more into the map, and takes that back.
    fn tried(&mut self, mut step: impl FnMut(&mut Map) -> bool) -> bool {
        let before = self.pairs.len();
        let done = step(self);
        self.pairs.truncate(before);
        done
    }
}

/// "A covers B if some map of A's variables to B's terms, constants fixed, sends
/// every atom of A to an atom of B", and the answer record "to the other's".
pub fn covers(a: &Question, b: &Question) -> bool {
    holds(a, &b.answer, &b.atoms)
}

/// "Two questions are equivalent if each covers the other."
pub fn equivalent(a: &Question, b: &Question) -> bool {
    covers(a, b) && covers(b, a)
}

/// Whether some map gives this row for the answer places and sends every atom to one of
/// the facts. A Boolean question has the row without places.
pub fn holds(question: &Question, row: &[Term], facts: &[Atom]) -> bool {
    let mut start = Map::default();
    sent_terms(&question.answer, row, &mut start) && some_map(&question.atoms, facts, &start)
}

/// The first map by which A covers B: "Among all maps give the first when atoms are taken in
/// order and candidates in order". The answer record has one candidate, the other's, and is
/// placed before the atoms.
pub fn first_map(a: &Question, b: &Question) -> Option<Map> {
    let mut start = Map::default();
    if !sent_terms(&a.answer, &b.answer, &mut start) {
        return None;
    }
    let mut first = None;
    for_each_map(&a.atoms, &b.atoms, &start, &mut |map| {
        first = Some(map.clone());
        false
    });
    first
}

/// Whether some map that extends `start` sends each atom of `a` to an atom of `b`.
pub fn some_map(a: &[Atom], b: &[Atom], start: &Map) -> bool {
    let mut found = false;
    for_each_map(a, b, start, &mut |_| {
        found = true;
        false
    });
    found
}

/// Calls `visit` with every map that extends `start` and sends each atom of `a` to
/// an atom of `b`, placements in order, until `visit` answers false.
pub fn for_each_map(a: &[Atom], b: &[Atom], start: &Map, visit: &mut dyn FnMut(&Map) -> bool) {
    let mut map = start.clone();
    if a.iter().all(|atom| has_candidate(atom, b, &mut map)) {
        place(a, b, &mut map, visit);
    }
}

/// Places the first of the atoms on each of `b` in turn, and the others after it; false
/// once `visit` has answered false or the budget is used up.
fn place(atoms: &[Atom], b: &[Atom], map: &mut Map, visit: &mut dyn FnMut(&Map) -> bool) -> bool {
    let Some((first, others)) = atoms.split_first() else {
        return visit(map);
    };
    let goes_on = |map: &mut Map, target: &Atom, visit: &mut dyn FnMut(&Map) -> bool| {
        !sent(first, target, map) || place(others, b, map, visit)
    };
    b.iter()
        .all(|target| budget::take(1) && map.tried(|map| goes_on(map, target, visit)))
}

/// Whether this atom could be placed on one of `b` if no other had to be.
fn has_candidate(atom: &Atom, b: &[Atom], map: &mut Map) -> bool {
    b.iter()
        .any(|target| map.tried(|map| sent(atom, target, map)))
}

/// Makes the map longer so that it sends the atom to the target; whether it can be.
fn sent(atom: &Atom, target: &Atom, map: &mut Map) -> bool {
    atom.relation == target.relation && sent_terms(&atom.terms, &target.terms, map)
}

/// Makes the map longer so that it sends these terms to those, place by place; whether there
/// are as many and it can be.
fn sent_terms(terms: &[Term], targets: &[Term], map: &mut Map) -> bool {
    let mut places = terms.iter().zip(targets);
    terms.len() == targets.len() && places.all(|(&from, &to)| sent_term(from, to, map))
}

/// The same for one term.
fn sent_term(from: Term, to: Term, map: &mut Map) -> bool {
    let Term::Variable(v) = from else {
        return from == to;
    };
    match map.image(v) {
        Some(image) => image == to,
        None => {
            map.put(v, to);
            true
        }
    }
}
