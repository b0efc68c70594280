//! The exploration of Rauntiko in plain Rust, as fast as it will go. It is the bar that the
//! proved program's speed is measured against. It answers every book and every pair of
//! records as the second program does, which is brute force and stays so.
//!
//! Reading order: `atom` and `bits` are what all is made of; `form` is how questions are
//! kept; `pattern`, `target` and `cover` say which covers which; `rule`, `classes`, `options`,
//! `seen` and `choices` make rewritings; `members` and `explore` are a run; `header`, `book` and `union`
//! are its bytes, `copying` a book's in the other form; `desk` is the search desk.

mod atom;
mod bits;
mod book;
mod choices;
mod classes;
mod copying;
mod cover;
mod desk;
mod explore;
mod form;
mod header;
mod members;
mod options;
mod pattern;
mod rule;
mod seen;
mod target;
mod union;

pub use copying::{to_new, to_old, BOOK_ROOM};
pub use desk::{covers, kept};
pub use union::OUTPUT_ROOM;

use atom::{FOUR, SIX};
use book::Book;
use explore::explore;

/// The answer to a book: 0 and the length written, or a refusal's number and place.
#[derive(Clone, Copy, Debug, PartialEq, Eq)]
pub struct Answer {
    pub number: u8,
    pub place: usize,
}

impl Answer {
    /// This number at this place.
    fn new(number: u8, place: usize) -> Answer {
        Answer { number, place }
    }
}

/// Runs a book. With 0 its union stands at the output's front; a refusal changes no byte.
pub fn run(book: &[u8], out: &mut [u8]) -> Answer {
    if out.len() < OUTPUT_ROOM {
        return Answer::new(1, 0);
    }
    match header::places_of(book) {
        SIX => run_of::<SIX>(book, out),
        _ => run_of::<FOUR>(book, out),
    }
}

/// Runs a book whose atoms have room for W places; the output has room.
fn run_of<const W: usize>(book: &[u8], out: &mut [u8]) -> Answer {
    match Book::<W>::read(book).and_then(|book| explore(&book)) {
        Err(refused) => refused,
        Ok(run) => Answer::new(0, union::write(&run, out)),
    }
}
