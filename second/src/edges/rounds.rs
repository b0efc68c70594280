//! Words and widening: rules by which a question comes again with another word, so that whatever
//! is slow in it is slow many times.

use crate::term::{Atom, Rule, Term};

/// Words for one place of a relation of four places, the others to be widened.
#[derive(Clone, Copy, Debug)]
pub struct Rounds {
    pub relation: usize,
    /// How many words there are.
    pub words: usize,
    /// The constant that is widened; those of the words follow it.
    pub narrow: usize,
}

/// The places that are widened; the word's comes after them.
const WIDENED: usize = 3;

impl Rounds {
    /// How many constants it needs.
    pub fn constants(self) -> usize {
        1 + self.words
    }

    /// The narrow atom of the first word, to be asked.
    pub fn asked(self) -> Atom {
        let narrow = Term::Constant(self.narrow);
        self.atom([narrow; WIDENED], self.word(0))
    }

    /// From each word to the next, and from narrow to wide, a place at a time.
    pub fn rules(self) -> Vec<Rule> {
        let words = (1..self.words).map(|i| self.next_word(i));
        let widening = (0..WIDENED).map(|place| self.widening(place));
        words.chain(widening).collect()
    }

    /// Whatever is so by this word is so by the one before it.
    fn next_word(self, i: usize) -> Rule {
        let with = |i| self.atom(self.open(), self.word(i));
        rule(with(i), with(i - 1))
    }

    /// Whatever is so of anything is so of the narrow thing in this place.
    fn widening(self, place: usize) -> Rule {
        let word = Term::Variable(WIDENED);
        let mut narrow = self.open();
        narrow[place] = Term::Constant(self.narrow);
        rule(self.atom(self.open(), word), self.atom(narrow, word))
    }

    /// A variable of its own in each place.
    fn open(self) -> [Term; WIDENED] {
        [0, 1, 2].map(Term::Variable)
    }

    /// The word of this number.
    fn word(self, i: usize) -> Term {
        Term::Constant(self.narrow + 1 + i)
    }

    /// The atom with these terms and this word.
    fn atom(self, terms: [Term; WIDENED], word: Term) -> Atom {
        let mut terms = terms.to_vec();
        terms.push(word);
        Atom::new(self.relation, terms)
    }
}

/// A rule of one atom each.
fn rule(body: Atom, head: Atom) -> Rule {
    Rule {
        body: vec![body],
        head: vec![head],
    }
}
