//! A book from one form to the other.

use crate::raw::{self, Answer};
use crate::refusal::Refusal;

/// The book in the new form, whose atoms have room for six places. One that is new already is
/// copied.
///
/// ```
/// let words: [u16; 9] = [1, 0, 0, 1, 10, 18, 19, 19, 24];
/// let mut book: Vec<u8> = words.iter().flat_map(|word| word.to_le_bytes()).collect();
/// book.extend([1, 0, 0, 255, 255, 255]); // one relation, and the question r0(v0)
/// let new = rauntiko::to_new(&book)?;
/// assert_eq!(new[18..], [6, 0, 1, 0, 0, 255, 255, 255, 255, 255]);
/// assert_eq!(rauntiko::to_old(&new)?, book);
/// assert_eq!(rauntiko::rewrite(&new)?.to_string(), rauntiko::rewrite(&book)?.to_string());
/// # Ok::<(), rauntiko::Refusal>(())
/// ```
pub fn to_new(book: &[u8]) -> Result<Vec<u8>, Refusal> {
    copied(raw::to_new, book)
}

/// The book in the old form, whose atoms have room for four places; [`Refusal::NoOldForm`] if a
/// relation has more, or a variable is above 31. One that is old already is copied.
pub fn to_old(book: &[u8]) -> Result<Vec<u8>, Refusal> {
    copied(raw::to_old, book)
}

/// The copy that a routine makes of a book, or its refusal.
fn copied(copy: fn(&[u8], &mut [u8]) -> Answer, book: &[u8]) -> Result<Vec<u8>, Refusal> {
    let mut out = vec![0; raw::BOOK_ROOM];
    let answer = copy(book, &mut out);
    answer.done().map(|length| {
        out.truncate(length);
        out
    })
}
