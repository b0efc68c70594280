//! Atoms for arrows: the first two places are the arrow's points, the others are filled.

use super::graphs::{points, Arrow};
use crate::random::Random;
use crate::term::{Atom, Term};

/// What stands in the places after the second.
#[derive(Clone, Copy, Debug, PartialEq, Eq)]
pub enum Filling {
    /// In each a variable of its own.
    Apart,
    /// The point that the arrow comes from.
    Repeated,
    /// One variable for all atoms.
    Shared,
}

/// How the relation of the arrows looks.
#[derive(Clone, Copy, Debug)]
pub struct Drawn {
    pub relation: usize,
    /// With one place an arrow is the point that it comes from.
    pub places: usize,
    pub filling: Filling,
}

impl Filling {
    /// Some filling, mostly the one that says nothing.
    pub fn any(random: &mut Random) -> Filling {
        use Filling::*;
        *random.one_of(&[Apart, Apart, Apart, Repeated, Shared])
    }
}

impl Drawn {
    /// The same relation, its places now and then filled otherwise.
    pub fn perhaps_otherwise(self, random: &mut Random) -> Drawn {
        match random.percent(30) {
            true => Drawn {
                filling: Filling::any(random),
                ..self
            },
            false => self,
        }
    }

    /// An atom for each arrow. Points are variables of the same number, those of fillings follow.
    pub fn atoms(self, arrows: &[Arrow]) -> Vec<Atom> {
        let mut next = points(arrows);
        arrows
            .iter()
            .map(|&arrow| self.atom(arrow, &mut next))
            .collect()
    }

    /// The atom for an arrow; `next` is the first variable that stands nowhere yet.
    fn atom(self, (from, to): Arrow, next: &mut usize) -> Atom {
        let mut terms = vec![from, to];
        terms.truncate(self.places);
        while terms.len() < self.places {
            terms.push(self.filled(from, next));
        }
        Atom::new(
            self.relation,
            terms.into_iter().map(Term::Variable).collect(),
        )
    }

    /// What stands in a further place of an arrow from this point.
    fn filled(self, from: usize, next: &mut usize) -> usize {
        match self.filling {
            Filling::Repeated => from,
            Filling::Shared => *next,
            Filling::Apart => {
                *next += 1;
                *next - 1
            }
        }
    }
}
