//! A question made ready to cover others: what does not change from one test to the next
//! is worked out once.

use crate::atom::{byte_of, is_variable, Atom, ANSWER_PLACES, FIRST_CONSTANT, SIX};
use crate::bits::bits;

/// The most atoms that a question has, at the desk or before it is a member.
pub const MOST_ATOMS: usize = 11;

/// The most variables that stand in two atoms or more.
const MOST_SHARED: usize = MOST_ATOMS * SIX / 2;

/// Stands in a pattern for a variable that occurs in this atom alone.
const ALONE: u8 = FIRST_CONSTANT - 1;

/// The first of the bytes that stand for what is found at an answer place.
const ASKED: u8 = ALONE - ANSWER_PLACES as u8;

/// An atom that is to be placed.
#[derive(Clone, Copy)]
pub struct Sought<const W: usize> {
    /// The atom: shared variables numbered from 0, the others `ALONE` or from `ASKED` on.
    pub atom: Atom<W>,
    /// Its shared variables, as bits.
    pub shared: u64,
    /// Pairs of places with the same variable: bit 8 p + q for places p and q.
    pub twins: u64,
    /// Its kind.
    pub kind: u16,
    /// The places that hold constants, as bits.
    pub constants: u8,
    /// The places that hold answer variables, as bits.
    pub asked: u8,
}

/// A question as that which covers.
#[derive(Clone, Copy)]
pub struct Pattern<const W: usize> {
    count: usize,
    atoms: [Sought<W>; MOST_ATOMS],
    /// For each shared variable the atoms in which it stands, as bits.
    pub standing: [u16; MOST_SHARED],
    /// The shared variables.
    pub shared: u64,
    /// The atoms that have shared variables, as bits.
    pub tied: u16,
    /// The answer record, which must go to the other's.
    answer: Atom<W>,
    /// Its relations as bits.
    pub relations: u64,
    /// The marks of its atoms and its answer record. Those of a spare atom are also those of
    /// the one it is laid on.
    pub marks: u64,
}

impl<const W: usize> Sought<W> {
    const NOTHING: Sought<W> = Sought {
        atom: Atom::NONE,
        shared: 0,
        twins: 0,
        kind: 0,
        constants: 0,
        asked: 0,
    };

    /// The answer place whose term the variable in this place goes to.
    #[inline]
    pub fn answer_place(&self, place: usize) -> usize {
        (self.atom.place(place) - ASKED) as usize
    }

    /// The first place in which a shared variable of the atom stands. One that stands in more
    /// has the same image there, for every candidate has.
    #[inline]
    pub fn place_of(&self, variable: usize) -> usize {
        let is_there = |&place: &usize| self.atom.place(place) as usize == variable;
        (0..W - 1).find(is_there).unwrap_or(W - 1)
    }
}

/// The pairs of places with the same variable.
fn twins<const W: usize>(atom: Atom<W>) -> u64 {
    let mut twins = 0;
    for q in 1..atom.used() {
        let term = atom.place(q);
        for p in (0..q).filter(|&p| is_variable(term) && atom.place(p) == term) {
            twins |= 1 << (8 * p + q);
        }
    }
    twins
}

/// Whether the target has one term in both places of each pair.
#[inline]
fn are_twins<const W: usize>(twins: u64, target: Atom<W>) -> bool {
    bits(twins).all(|pair| target.place(pair / 8) == target.place(pair % 8))
}

/// The atoms that a pattern is made of, and in how many of them each variable stands. The
/// answer record counts for two, so none of its variables is alone.
struct Making<'a, const W: usize> {
    atoms: &'a [Atom<W>],
    kept: u16,
    standing: [u8; FIRST_CONSTANT as usize],
}

impl<const W: usize> Making<'_, W> {
    /// Counts an atom's variables in or out, each once.
    fn count(&mut self, atom: Atom<W>, by: i8) {
        for (place, term) in atom.terms().enumerate() {
            let before = (0..place).any(|earlier| atom.place(earlier) == term);
            if is_variable(term) && !before {
                let standing = &mut self.standing[term as usize];
                *standing = standing.wrapping_add_signed(by);
            }
        }
    }

    /// The bytes of an atom that are kept when all that stands elsewhere is kept.
    fn held(&self, atom: Atom<W>) -> u64 {
        let mut held = !Atom::<W>::ALL_PLACES;
        for place in 0..W {
            let term = atom.place(place);
            if !is_variable(term) || self.standing[term as usize] > 1 {
                held |= byte_of(place);
            }
        }
        held
    }

    /// Whether the atom can be laid on another one, all other variables kept. Then it can go
    /// wherever that one goes, and asks for nothing.
    fn is_spare(&self, at: usize) -> bool {
        let (atom, held) = (self.atoms[at], self.held(self.atoms[at]));
        bits((self.kept & !(1 << at)) as u64).any(|other| {
            let target = self.atoms[other];
            (atom.0 ^ target.0) & held == 0 && are_twins(twins(atom), target)
        })
    }

    /// Drops spare atoms until there are none. Each that goes may leave variables of others
    /// alone.
    fn drop_spare(&mut self) {
        while let Some(at) = bits(self.kept as u64).find(|&at| self.is_spare(at)) {
            self.kept &= !(1 << at);
            self.count(self.atoms[at], -1);
        }
    }
}

impl<const W: usize> Pattern<W> {
    const EMPTY: Pattern<W> = Pattern {
        count: 0,
        atoms: [Sought::NOTHING; MOST_ATOMS],
        standing: [0; MOST_SHARED],
        shared: 0,
        tied: 0,
        answer: Atom::NONE,
        relations: 0,
        marks: 0,
    };

    /// The pattern of a question with this answer record, or none, and these atoms.
    pub fn of(answer: Atom<W>, atoms: &[Atom<W>]) -> Pattern<W> {
        let relations = atoms.iter().fold(0, |all, atom| all | atom.relation_bit());
        let mut making = Making {
            atoms,
            kept: (1 << atoms.len()) - 1,
            standing: [0; FIRST_CONSTANT as usize],
        };
        making.count(answer, 2);
        atoms.iter().for_each(|&atom| making.count(atom, 1));
        if (relations.count_ones() as usize) < atoms.len() {
            making.drop_spare();
        }
        let mut pattern = Pattern {
            answer,
            relations,
            marks: answer.marks(),
            ..Pattern::EMPTY
        };
        pattern.fill(&making);
        pattern
    }

    /// The atoms to be placed.
    #[inline]
    pub fn atoms(&self) -> &[Sought<W>] {
        &self.atoms[..self.count]
    }

    /// Whether the answer record can go to this one.
    #[inline]
    pub fn answer_goes_to(&self, answer: Atom<W>) -> bool {
        (self.answer.0 ^ answer.0) & self.answer.fixed() == 0
            && (self.answer.used() < 2 || are_twins(twins(self.answer), answer))
    }

    /// Adds the atoms that are kept, those with constants first: they refute most.
    fn fill(&mut self, making: &Making<W>) {
        let mut numbers = [ALONE; FIRST_CONSTANT as usize];
        for (place, term) in self.answer.terms().enumerate() {
            if is_variable(term) {
                numbers[term as usize] = ASKED + place as u8;
            }
        }
        let mut shared = 0;
        let has_constants = |&at: &usize| making.atoms[at].has_constants();
        let first = bits(making.kept as u64).filter(has_constants);
        let then = bits(making.kept as u64).filter(|at| !has_constants(at));
        for at in first.chain(then) {
            for term in making.atoms[at].terms().filter(|&term| is_variable(term)) {
                let number = &mut numbers[term as usize];
                if *number == ALONE && making.standing[term as usize] > 1 {
                    *number = shared;
                    shared += 1;
                }
            }
            self.add(making.atoms[at], &numbers);
        }
    }

    /// Adds an atom, its variables numbered so.
    fn add(&mut self, atom: Atom<W>, numbers: &[u8; FIRST_CONSTANT as usize]) {
        let mut sought = Sought {
            atom,
            kind: atom.kind() as u16,
            twins: twins(atom),
            ..Sought::NOTHING
        };
        for (place, term) in atom.terms().enumerate() {
            if !is_variable(term) {
                sought.constants |= 1 << place;
                continue;
            }
            let number = numbers[term as usize];
            sought.atom = sought.atom.with(place, number);
            if number < ASKED {
                sought.shared |= 1 << number;
                self.standing[number as usize] |= 1 << self.count;
            } else if number != ALONE {
                sought.asked |= 1 << place;
            }
        }
        self.tied |= ((sought.shared != 0) as u16) << self.count;
        self.shared |= sought.shared;
        self.marks |= atom.marks();
        self.atoms[self.count] = sought;
        self.count += 1;
    }
}
