//! The proved routines as they are: on byte slices, with plain numbers. Every number means
//! what the build paper says; [`Refusal::of`](crate::Refusal::of) puts it into words.

use crate::sys;
use crate::Refusal;

/// The least room for the output of [`run`].
pub const OUTPUT_ROOM: usize = 4104;

/// The least room for the output of [`to_new`] and [`to_old`].
pub const BOOK_ROOM: usize = 2003;

/// A number and a place. 0 means done, and the place is the length written; any other number
/// is a refusal, and no byte of any buffer is changed.
#[derive(Clone, Copy, Debug, PartialEq, Eq)]
pub struct Answer {
    /// 0, or the refusal's number.
    pub number: u8,
    /// The length written, or the refusal's place.
    pub place: usize,
}

impl Answer {
    /// The answer of this number and place.
    fn of((number, place): (u8, usize)) -> Answer {
        Answer { number, place }
    }

    /// The length written, or the refusal.
    pub(crate) fn done(self) -> Result<usize, Refusal> {
        match self.number {
            0 => Ok(self.place),
            number => Err(Refusal::of(number, self.place).expect("there is no other number")),
        }
    }
}

/// Rewrites a book's question. The union stands at the start of `out`, its members as wide as
/// the book's atoms; the bytes after it are not touched.
pub fn run(book: &[u8], out: &mut [u8]) -> Answer {
    Answer::of(sys::run(book, out))
}

/// Copies a book into the new form, to the start of `out`; the bytes after it are not touched.
pub fn to_new(book: &[u8], out: &mut [u8]) -> Answer {
    Answer::of(sys::to_new(book, out))
}

/// Copies a book into the old form, likewise; refusal 13 if it has none.
pub fn to_old(book: &[u8], out: &mut [u8]) -> Answer {
    Answer::of(sys::to_old(book, out))
}

/// How many bytes a map has at both widths: one for each variable that a member record may have.
pub const MAP: usize = 66;

/// What [`covers`] gives.
#[derive(Clone, Copy, Debug, PartialEq, Eq)]
pub struct Covered {
    /// 0 no, 1 yes, 2 first malformed, 3 second malformed; 2 wins.
    pub number: u8,
    /// The first map of the first record to the second: byte v is the byte of the term that
    /// variable v goes to. 255 where v does not stand in the first record, and everywhere if
    /// the number is not 1.
    pub map: [u8; MAP],
}

/// What [`kept`] gives.
#[derive(Clone, Copy, Debug, PartialEq, Eq)]
pub struct Kept {
    /// 1 the first, which covers the second; 2 the second, which alone covers the other; 0
    /// neither, since they are malformed or incomparable.
    pub which: u8,
    /// The first map of the record that is kept to the other, as in [`Covered`]; all 255 if
    /// neither is.
    pub map: [u8; MAP],
}

/// If the first member record covers the second, and by which map. `width` is how many places
/// their atoms have room for, 4 or 6; with another every record is malformed.
///
/// Of all sequences of candidates, one for each atom of the first record in its order, that
/// some map allows, the map is that of the first. An answer record is placed before the atoms.
pub fn covers(first: &[u8], second: &[u8], width: usize) -> Covered {
    let mut map = [0; MAP];
    let number = sys::covers(first, second, width, &mut map);
    Covered { number, map }
}

/// Which of two member records to keep, and by which map it covers the other.
pub fn kept(first: &[u8], second: &[u8], width: usize) -> Kept {
    let mut map = [0; MAP];
    let which = sys::kept(first, second, width, &mut map);
    Kept { which, map }
}
