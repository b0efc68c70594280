//! The classes of terms that a choice makes, undone on the way back instead of copied.

use crate::atom::{is_variable, Atom, FIRST_CONSTANT, SIX, TERMS, UNUSED, VARIABLES};
use crate::form::MEMBER_ATOMS;

/// The most steps that one choice takes: the answer record and each question atom take one
/// for each place.
const MOST_STEPS: usize = (1 + MEMBER_ATOMS) * SIX;

/// Said of a class that has an unknown.
pub const UNKNOWN: u8 = 1;

/// Said of a class that has a constant, a frontier variable or a question variable of a left
/// atom: what no unknown may meet.
pub const HELD: u8 = 2;

/// A step that can be undone: `lost` was put into the class of `kept`, of which `said` was
/// said before. If they are the same, only more was said of it.
#[derive(Clone, Copy)]
struct Step {
    kept: u8,
    lost: u8,
    said: u8,
}

/// Classes of terms: question variables from 0 on, then the rule's, and the constants. Each
/// class is a ring of terms with one of them as its name, the constant if it has one.
pub struct Classes {
    /// The name of each term's class.
    name: [u8; TERMS],
    /// The next term of the same class.
    next: [u8; TERMS],
    /// For the name of a class, what is said of it.
    said: [u8; TERMS],
    steps: [Step; MOST_STEPS],
    taken: usize,
}

impl Classes {
    /// Every term in a class of its own.
    pub fn new() -> Classes {
        let mut own = [0; TERMS];
        for (term, name) in own.iter_mut().enumerate() {
            *name = term as u8;
        }
        let mut said = [0; TERMS];
        said[FIRST_CONSTANT as usize..].fill(HELD);
        let nothing = Step {
            kept: 0,
            lost: 0,
            said: 0,
        };
        Classes {
            name: own,
            next: own,
            said,
            steps: [nothing; MOST_STEPS],
            taken: 0,
        }
    }

    /// Says of each variable of a rule if it is an unknown or a frontier variable.
    pub fn say_of_rule(&mut self, said: &[u8; VARIABLES]) {
        self.said[VARIABLES..2 * VARIABLES].copy_from_slice(said);
    }

    /// The name of each term's class: what stands for it in the rewriting.
    pub fn names(&self) -> &[u8; TERMS] {
        &self.name
    }

    /// How many steps are taken, to come back to.
    pub fn taken(&self) -> usize {
        self.taken
    }

    /// Puts the terms at equal places in one class; false if no valid choice does.
    #[inline]
    pub fn send<const W: usize>(&mut self, atom: Atom<W>, head: Atom<W>) -> bool {
        (0..atom.used()).all(|place| self.join(atom.place(place), head.place(place)))
    }

    /// Leaves an atom, so that no unknown may meet its variables; false if one has.
    #[inline]
    pub fn leave<const W: usize>(&mut self, atom: Atom<W>) -> bool {
        atom.terms().all(|term| self.hold(term))
    }

    /// Whether sending an atom so might still be valid: no two terms at one place are kept
    /// apart by what is said of their classes.
    #[inline]
    pub fn can_send<const W: usize>(&self, atom: Atom<W>, head: Atom<W>) -> bool {
        (0..atom.used()).all(|place| {
            let a = self.name[atom.place(place) as usize];
            let b = self.name[head.place(place) as usize];
            a == b || self.can_join(a, b)
        })
    }

    /// Whether two classes of these names can be made one: not if it would have two constants
    /// or something beside an unknown.
    #[inline]
    fn can_join(&self, a: u8, b: u8) -> bool {
        let (one, other) = (self.said[a as usize], self.said[b as usize]);
        let beside = (one | other) == UNKNOWN | HELD || one & other & UNKNOWN != 0;
        !beside && (is_variable(a) || is_variable(b))
    }

    /// Makes one class of two; false if it has two constants or something beside an unknown.
    #[inline]
    fn join(&mut self, of_question: u8, of_rule: u8) -> bool {
        let a = self.name[of_question as usize];
        let b = self.name[of_rule as usize];
        if a == b {
            return true;
        }
        if !self.can_join(a, b) {
            return false;
        }
        let said = self.said[a as usize] | self.said[b as usize];
        let (kept, lost) = match is_variable(a) {
            true => (b, a),
            false => (a, b),
        };
        self.take(kept, lost, said);
        self.rename(lost, kept);
        self.next.swap(kept as usize, lost as usize);
        true
    }

    /// Says of a term's class that no unknown may be in it; false if one is.
    #[inline]
    fn hold(&mut self, term: u8) -> bool {
        let name = self.name[term as usize];
        match self.said[name as usize] {
            HELD => true,
            0 => {
                self.take(name, name, HELD);
                true
            }
            _ => false,
        }
    }

    /// Takes a step after which this is said of `kept`.
    fn take(&mut self, kept: u8, lost: u8, said: u8) {
        let before = self.said[kept as usize];
        self.steps[self.taken] = Step {
            kept,
            lost,
            said: before,
        };
        self.taken += 1;
        self.said[kept as usize] = said;
    }

    /// Gives all terms of a ring this name.
    #[inline]
    fn rename(&mut self, ring: u8, name: u8) {
        let mut term = ring;
        loop {
            self.name[term as usize] = name;
            term = self.next[term as usize];
            if term == ring {
                return;
            }
        }
    }

    /// Undoes all steps but so many, the last first: two rings that were made one by
    /// exchanging what comes next are parted by exchanging it again.
    pub fn undo(&mut self, taken: usize) {
        while self.taken > taken {
            self.taken -= 1;
            let Step { kept, lost, said } = self.steps[self.taken];
            self.said[kept as usize] = said;
            if kept != lost {
                self.next.swap(kept as usize, lost as usize);
                self.rename(lost, lost);
            }
        }
    }
}

/// The unused place is no variable, so it has a class of its own that nothing joins.
const _: () = assert!(UNUSED > FIRST_CONSTANT && 2 * VARIABLES <= FIRST_CONSTANT as usize);
