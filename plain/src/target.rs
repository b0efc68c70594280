//! A question made ready to be covered.

use crate::atom::{Atom, RELATIONS, TERMS};
use crate::bits::bits;
use crate::pattern::MOST_ATOMS;

/// A question as that which is covered, with an index of its atoms. Its atoms need not be in
/// any form. One target is filled again and again, since the index is long and most of it
/// stays empty.
pub struct Target<const W: usize> {
    count: usize,
    atoms: [Atom<W>; MOST_ATOMS],
    pub answer: Atom<W>,
    /// Its relations as bits.
    pub relations: u64,
    /// For each kind of atom those of that kind, as bits.
    kinds: [[u16; RELATIONS]; W],
    /// For each place and each term the atoms that have it there, as bits.
    terms: [[u16; TERMS]; W],
}

impl<const W: usize> Target<W> {
    /// A target without atoms or answers.
    pub fn new() -> Target<W> {
        Target {
            count: 0,
            atoms: [Atom::NONE; MOST_ATOMS],
            answer: Atom::NONE,
            relations: 0,
            kinds: [[0; RELATIONS]; W],
            terms: [[0; TERMS]; W],
        }
    }

    /// Starts again with this answer record, or none, and no atoms yet.
    #[inline]
    pub fn start(&mut self, answer: Atom<W>) {
        for atom in &self.atoms[..self.count] {
            self.kinds.as_flattened_mut()[atom.kind()] = 0;
            for (place, terms) in self.terms.iter_mut().enumerate() {
                terms[atom.place(place) as usize] = 0;
            }
        }
        self.count = 0;
        self.answer = answer;
        self.relations = 0;
    }

    /// Adds an atom.
    #[inline]
    pub fn push(&mut self, atom: Atom<W>) {
        let bit = 1 << self.count;
        self.kinds.as_flattened_mut()[atom.kind()] |= bit;
        for (place, terms) in self.terms.iter_mut().enumerate() {
            terms[atom.place(place) as usize] |= bit;
        }
        self.atoms[self.count] = atom;
        self.count += 1;
        self.relations |= atom.relation_bit();
    }

    /// Starts again with this question.
    pub fn fill(&mut self, answer: Atom<W>, atoms: &[Atom<W>]) {
        self.start(answer);
        atoms.iter().for_each(|&atom| self.push(atom));
    }

    /// Its atoms.
    pub fn atoms(&self) -> &[Atom<W>] {
        &self.atoms[..self.count]
    }

    /// One of its atoms.
    #[inline]
    pub fn atom(&self, at: usize) -> Atom<W> {
        self.atoms[at]
    }

    /// The atoms of a kind, as bits.
    #[inline]
    pub fn of_kind(&self, kind: usize) -> u16 {
        self.kinds.as_flattened()[kind]
    }

    /// The atoms that have this term in this place, as bits.
    #[inline]
    pub fn having(&self, place: usize, term: u8) -> u16 {
        self.terms[place][term as usize]
    }

    /// Those of these atoms that have one term in both places.
    pub fn having_twice(&self, atoms: u16, one: usize, other: usize) -> u16 {
        let has = |&at: &usize| self.atom(at).place(one) == self.atom(at).place(other);
        let having = bits(atoms as u64).filter(has);
        having.fold(0, |having, at| having | 1 << at)
    }
}
