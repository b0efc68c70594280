//! A book from one form to the other.

use crate::atom::{record_length, variables, FIRST_CONSTANT, FOUR, RELATIONS, SIX, UNUSED};
use crate::book::Reading;
use crate::header::{places_of, Header, QUESTION_ATOMS, RULES};
use crate::rule::RULE_ATOMS;
use crate::Answer;

/// The room that a copy must have: the largest book.
pub const BOOK_ROOM: usize = Header::<SIX>::LENGTH
    + RELATIONS
    + RULES * (2 + 2 * RULE_ATOMS * record_length(SIX))
    + (1 + QUESTION_ATOMS) * record_length(SIX);

/// Copies a book into the new form. With 0 the copy stands at the output's front; a refusal
/// changes no byte.
pub fn to_new(book: &[u8], out: &mut [u8]) -> Answer {
    copy_to::<SIX>(book, out)
}

/// Copies a book into the old form; refusal 13 where it has none.
pub fn to_old(book: &[u8], out: &mut [u8]) -> Answer {
    copy_to::<FOUR>(book, out)
}

/// Copies a book so that its atoms have room for TO places.
fn copy_to<const TO: usize>(book: &[u8], out: &mut [u8]) -> Answer {
    if out.len() < BOOK_ROOM {
        return Answer::new(1, 0);
    }
    let copied = match places_of(book) {
        SIX => copy::<SIX, TO>(book, out),
        _ => copy::<FOUR, TO>(book, out),
    };
    match copied {
        Err(refused) => refused,
        Ok(length) => Answer::new(0, length),
    }
}

/// Copies a book from one form to another; its length there.
fn copy<const FROM: usize, const TO: usize>(book: &[u8], out: &mut [u8]) -> Result<usize, Answer> {
    let reading = Reading::<FROM>::judged(book)?;
    let header = &reading.header;
    if let Some(place) = reading.first_beyond(TO, variables(TO)) {
        return Err(Answer::new(13, place));
    }
    out[..Header::<FOUR>::LENGTH].copy_from_slice(&book[..Header::<FOUR>::LENGTH]);
    let mut copying = Copying::<FROM, TO> {
        out,
        end: Header::<TO>::LENGTH,
    };
    copying.push(&book[Header::<FROM>::LENGTH..header.rules_at()]);
    let rules_at = copying.end;
    for rule in reading.rules() {
        let (counts, atoms) = book[rule].split_at(2);
        copying.push(counts);
        copying.push_records(atoms);
    }
    let question_at = copying.end;
    copying.push_records(&book[header.question_at..]);
    let total = copying.end;
    let words = [Header::<TO>::LENGTH, rules_at, question_at, total, TO];
    let words_at = (10..Header::<TO>::LENGTH).step_by(2);
    for (at, word) in words_at.zip(words) {
        out[at..at + 2].copy_from_slice(&(word as u16).to_le_bytes());
    }
    Ok(total)
}

/// A copy as far as it is written.
struct Copying<'o, const FROM: usize, const TO: usize> {
    out: &'o mut [u8],
    end: usize,
}

impl<const FROM: usize, const TO: usize> Copying<'_, FROM, TO> {
    /// Writes these bytes as they are.
    fn push(&mut self, bytes: &[u8]) {
        self.out[self.end..self.end + bytes.len()].copy_from_slice(bytes);
        self.end += bytes.len();
    }

    /// Writes these records, each with places added or taken away, which are unused.
    fn push_records(&mut self, records: &[u8]) {
        let both = record_length(FROM.min(TO));
        for record in records.chunks_exact(record_length(FROM)) {
            self.push(&record[..both]);
            self.push(&[UNUSED; SIX][..record_length(TO) - both]);
        }
    }
}

/// A constant's byte is none of a variable that is too high.
const _: () = assert!(variables(SIX) <= FIRST_CONSTANT as usize && BOOK_ROOM == 2003);
