//! The form in which questions are kept.

use crate::atom::{is_variable, Atom, TERMS, UNUSED};
use crate::pattern::MOST_ATOMS;

/// The most atoms of a member.
pub const MEMBER_ATOMS: usize = 8;

/// A question in its form. It may have more atoms than a member.
#[derive(Clone, Copy)]
pub struct Form<const W: usize> {
    pub answer: Atom<W>,
    pub count: usize,
    atoms: [Atom<W>; MOST_ATOMS],
}

impl<const W: usize> Form<W> {
    /// The form of a question: equal atoms dropped but for the first, then variables numbered
    /// by first appearance, those of the answer record first.
    pub fn of(answer: Atom<W>, atoms: &[Atom<W>]) -> Form<W> {
        let mut form = Form {
            answer,
            count: 0,
            atoms: [Atom::NONE; MOST_ATOMS],
        };
        for &atom in atoms {
            if !form.atoms().contains(&atom) {
                form.atoms[form.count] = atom;
                form.count += 1;
            }
        }
        form.number();
        form
    }

    /// Its atoms.
    pub fn atoms(&self) -> &[Atom<W>] {
        &self.atoms[..self.count]
    }

    /// Numbers the variables. Those not met yet have `UNUSED` for a number, which is none.
    fn number(&mut self) {
        let mut numbers = [UNUSED; TERMS];
        let mut met = 0;
        let atoms = &mut self.atoms[..self.count];
        for atom in std::iter::once(&mut self.answer).chain(atoms) {
            for (place, term) in atom.terms().enumerate() {
                if !is_variable(term) {
                    continue;
                }
                let number = &mut numbers[term as usize];
                if *number == UNUSED {
                    *number = met;
                    met += 1;
                }
                *atom = atom.with(place, *number);
            }
        }
    }
}
