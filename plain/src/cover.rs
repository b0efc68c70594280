//! Covering: whether some map sends a pattern's atoms to atoms of a target.
//!
//! Only yes or no is asked, so the order of the search is free: candidates are kept as bits
//! and narrowed ahead, an atom with one candidate is placed at once, else the one with the
//! fewest goes first, and parts that share no variable any more are decided each by itself.

use crate::bits::bits;
use crate::pattern::{Pattern, Sought, MOST_ATOMS};
use crate::target::Target;

/// How far a search has come.
#[derive(Clone, Copy)]
struct Placing {
    /// For each atom of the pattern the atoms of the target on which it may still be placed.
    candidates: [u16; MOST_ATOMS],
    /// The atoms that are to be placed, as bits.
    rest: u16,
    /// Those with a single candidate.
    single: u16,
    /// The shared variables without an image yet.
    open: u64,
}

/// Whether the pattern's question covers the target.
pub fn covers<const W: usize>(pattern: &Pattern<W>, target: &Target<W>) -> bool {
    let beside = pattern.relations & !target.relations;
    if beside != 0 || !pattern.answer_goes_to(target.answer) {
        return false;
    }
    let mut start = Placing {
        candidates: [0; MOST_ATOMS],
        rest: pattern.tied,
        single: 0,
        open: pattern.shared,
    };
    for (i, sought) in pattern.atoms().iter().enumerate() {
        let candidates = alone(sought, target);
        if candidates == 0 {
            return false;
        }
        start.candidates[i] = candidates;
        start.single |= (is_single(candidates) as u16) << i;
    }
    // Atoms that share no variable are placed on any candidate.
    start.single &= pattern.tied;
    pattern.tied == 0 || Search { pattern, target }.place(start)
}

/// Whether this is one candidate, given that it is not none.
#[inline]
fn is_single(candidates: u16) -> bool {
    candidates & (candidates - 1) == 0
}

/// The candidates of an atom when nothing else is placed.
#[inline]
fn alone<const W: usize>(sought: &Sought<W>, target: &Target<W>) -> u16 {
    let atom = sought.atom;
    let mut candidates = target.of_kind(sought.kind as usize);
    for place in bits(sought.constants as u64) {
        candidates &= target.having(place, atom.place(place));
    }
    for place in bits(sought.asked as u64) {
        candidates &= target.having(place, target.answer.place(sought.answer_place(place)));
    }
    for pair in bits(sought.twins) {
        candidates = target.having_twice(candidates, pair / 8, pair % 8);
    }
    candidates
}

/// A search for a map.
struct Search<'a, const W: usize> {
    pattern: &'a Pattern<W>,
    target: &'a Target<W>,
}

impl<const W: usize> Search<'_, W> {
    /// Whether the rest can be placed. Each of its atoms has a candidate.
    fn place(&self, mut now: Placing) -> bool {
        while now.single != 0 {
            let atom = now.single.trailing_zeros() as usize;
            let target = now.candidates[atom].trailing_zeros() as usize;
            if !self.put(atom, target, &mut now) {
                return false;
            }
        }
        // Parts that have no open variable in common do not touch each other, so if one
        // cannot be placed, nothing helps.
        while now.rest & now.rest.wrapping_sub(1) != 0 {
            let part = self.part(&now);
            now.rest &= !part;
            // One that is alone is placed on any candidate.
            if part & (part - 1) != 0 && !self.place_part(Placing { rest: part, ..now }) {
                return false;
            }
        }
        true
    }

    /// The part of the rest in which its first atom stands.
    fn part(&self, now: &Placing) -> u16 {
        let (rest, open) = (now.rest, now.open);
        let mut part = rest & rest.wrapping_neg();
        let mut variables = self.shared(rest.trailing_zeros() as usize) & open;
        let mut met = variables;
        while met != 0 {
            let standing = self.pattern.standing[met.trailing_zeros() as usize] & rest;
            met &= met - 1;
            for other in bits((standing & !part) as u64) {
                let more = self.shared(other) & open & !variables;
                variables |= more;
                met |= more;
            }
            part |= standing;
        }
        part
    }

    /// Puts the atom with the fewest candidates on each of them in turn, and places the others
    /// after it.
    fn place_part(&self, now: Placing) -> bool {
        let many = |&atom: &usize| now.candidates[atom].count_ones();
        let Some(first) = bits(now.rest as u64).min_by_key(many) else {
            return true;
        };
        bits(now.candidates[first] as u64).any(|target| {
            let mut then = now;
            self.put(first, target, &mut then) && self.place(then)
        })
    }

    /// Puts an atom on a candidate and takes from the others the candidates that do not agree;
    /// whether each has some left.
    #[inline]
    fn put(&self, atom: usize, target: usize, now: &mut Placing) -> bool {
        now.rest &= !(1 << atom);
        now.single &= !(1 << atom);
        let (from, to) = (&self.pattern.atoms()[atom], self.target.atom(target));
        for variable in bits(from.shared & now.open) {
            let image = to.place(from.place_of(variable));
            let standing = self.pattern.standing[variable] & now.rest;
            for other in bits(standing as u64) {
                let place = self.pattern.atoms()[other].place_of(variable);
                let candidates = now.candidates[other] & self.target.having(place, image);
                if candidates == 0 {
                    return false;
                }
                now.candidates[other] = candidates;
                now.single |= (is_single(candidates) as u16) << other;
            }
        }
        now.open &= !from.shared;
        true
    }

    /// The shared variables of an atom, as bits.
    fn shared(&self, atom: usize) -> u64 {
        self.pattern.atoms()[atom].shared
    }
}
