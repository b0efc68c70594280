//! Running one book from bytes to bytes.

use crate::book::{self, Book};
use crate::explore::{explore_by, Outcome};
use crate::seen::{Behaviour, Seen};
use crate::union::{self, OUTPUT_ROOM};
use crate::way::Way;
use crate::width::Width;

/// "The answer is a number and a place."
#[derive(Clone, Copy, Debug, PartialEq, Eq)]
pub struct Answer {
    pub number: usize,
    pub place: usize,
}

/// Runs a book: 0 with the union's length, the union standing at the output's start;
/// or a refusal, and "no output byte changed".
pub fn run(book: &[u8], output: &mut [u8]) -> Answer {
    run_by(book, output, Way::Right, &mut Seen::default())
}

/// The same in a given way, counting what is met.
pub fn run_by(bytes: &[u8], output: &mut [u8], way: Way, seen: &mut Seen) -> Answer {
    if output.len() < OUTPUT_ROOM {
        seen.mark(Behaviour::OutputTooSmall);
        return answer(1, 0);
    }
    let book = match book::read(bytes, seen) {
        Ok(book) => book,
        Err(fault) => return answer(fault.number, fault.place),
    };
    match explore_by(&book, way, seen) {
        Outcome::Refused { number, place } => answer(number, place),
        Outcome::Complete { members, explored } => {
            let union = union::write(&members, explored, book.width);
            output[..union.len()].copy_from_slice(&union);
            mark_length(&book, union.len(), seen);
            answer(0, union.len())
        }
    }
}

/// Counts which limits a union's length is at.
fn mark_length(book: &Book, length: usize, seen: &mut Seen) {
    let largest = |answered| length == union::largest(book.width, answered);
    let (boolean, old) = (!book.question.is_answered(), book.width == Width::Four);
    seen.mark_if(
        old && boolean && largest(false),
        Behaviour::LargestBooleanUnion,
    );
    seen.mark_if(old && largest(true), Behaviour::LargestOldUnion);
    seen.mark_if(
        !old && boolean && largest(false),
        Behaviour::LargestBooleanNewUnion,
    );
    seen.mark_if(length == OUTPUT_ROOM, Behaviour::LargestUnion);
    seen.mark_if(length == union::SMALLEST, Behaviour::SmallestUnion);
}

/// An answer of this number and place.
pub fn answer(number: usize, place: usize) -> Answer {
    Answer { number, place }
}
