//! The header of a stored book, and refusals 2 to 4.

use crate::atom::{record_length, FOUR, RELATIONS, SIX};
use crate::Answer;

/// The room of an atom in this book: six places exactly if the relations' offset is that of the
/// new form.
pub fn places_of(book: &[u8]) -> usize {
    match book.get(10..12) {
        Some(&[low, high]) if usize::from(u16::from_le_bytes([low, high])) == header(SIX) => SIX,
        _ => FOUR,
    }
}

/// The length of the header: nine words, in the new form ten.
const fn header(places: usize) -> usize {
    match places {
        SIX => 20,
        _ => 18,
    }
}

/// The most constants.
const CONSTANTS: usize = 127;

/// The most rules.
pub const RULES: usize = 32;

/// The most atoms of the question.
pub const QUESTION_ATOMS: usize = 8;

/// The most explorations allowed.
const ALLOWED: usize = 1000;

/// What the header of a sound book says.
pub struct Header<const W: usize> {
    pub relations: usize,
    pub constants: usize,
    pub rules: usize,
    pub atoms: usize,
    pub allowed: usize,
    pub question_at: usize,
    /// Whether an answer record stands before the question's atoms.
    pub answered: bool,
}

impl<const W: usize> Header<W> {
    /// Its length, where the relations stand.
    pub const LENGTH: usize = header(W);

    /// The header of a book, or refusal 2, 3 or 4.
    pub fn of(book: &[u8]) -> Result<Header<W>, Answer> {
        if book.len() < Self::LENGTH {
            return Err(Answer::new(2, 0));
        }
        let word = |i: usize| u16::from_le_bytes([book[2 * i], book[2 * i + 1]]) as usize;
        let (total, question_at) = (word(8), word(7));
        let header = Header {
            relations: word(0),
            constants: word(1),
            rules: word(2),
            atoms: word(3),
            allowed: word(4),
            question_at,
            answered: total == question_at + record_length(W) * (word(3) + 1),
        };
        if !header.is_in_table() || (W == SIX && word(9) != SIX) {
            return Err(Answer::new(3, 0));
        }
        let rules_at = header.rules_at();
        let apart = word(5) == Self::LENGTH && word(6) == rules_at && rules_at <= question_at;
        if !apart || total != header.end() || total != book.len() {
            return Err(Answer::new(4, 0));
        }
        Ok(header)
    }

    /// Whether every number is in its bounds.
    fn is_in_table(&self) -> bool {
        (1..=RELATIONS).contains(&self.relations)
            && self.constants <= CONSTANTS
            && self.rules <= RULES
            && (1..=QUESTION_ATOMS).contains(&self.atoms)
            && (1..=ALLOWED).contains(&self.allowed)
    }

    /// Where the rules begin.
    pub fn rules_at(&self) -> usize {
        Self::LENGTH + self.relations
    }

    /// Where the question's atoms begin.
    pub fn atoms_at(&self) -> usize {
        self.question_at + record_length(W) * self.answered as usize
    }

    /// Where the question ends.
    fn end(&self) -> usize {
        self.atoms_at() + record_length(W) * self.atoms
    }
}
