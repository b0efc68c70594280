//! Rauntiko for Rust programs.
//!
//! A book has rules about what follows from a ledger, and one question. [`rewrite`] gives a
//! union of questions: some member of it holds in a ledger as it was written down exactly when
//! the rules make the question true there. Where the whole union cannot be given it gives a
//! numbered [`Refusal`], and no part of one. The routines below are written in Rattle and
//! proved; this crate calls them and adds words and a walk.
//!
//! The build paper's printed book: whoever acts in movies plays in some movie.
//!
//! ```
//! use rauntiko::Term;
//!
//! let words: [u16; 9] = [3, 0, 1, 2, 10, 18, 21, 38, 48];
//! let mut book: Vec<u8> = words.iter().flat_map(|word| word.to_le_bytes()).collect();
//! book.extend([1, 1, 2]); // the relations' places
//! book.extend([1, 2]); // a rule with one atom in its body and two in its head
//! book.extend([0, 0, 255, 255, 255]); // movieActor(x) ->
//! book.extend([1, 1, 255, 255, 255, 2, 0, 1, 255, 255]); // movie(z) play(x,z)
//! book.extend([1, 0, 255, 255, 255, 2, 1, 0, 255, 255]); // the question: movie(y) play(x,y)
//!
//! let union = rauntiko::rewrite(&book)?;
//! assert_eq!(union.to_string(), "members 2 explored 2\nr1(v0) r2(v1,v0)\nr0(v0)\n");
//!
//! let first = union.members().next().unwrap();
//! let play = first.atoms().last().unwrap();
//! assert_eq!(play.relation(), 2);
//! assert!(play.terms().eq([Term::Variable(1), Term::Variable(0)]));
//!
//! book[8] = 1; // only one exploration allowed
//! let refusal = rauntiko::rewrite(&book).unwrap_err();
//! assert_eq!((refusal.number(), refusal.place()), (10, 1));
//! assert_eq!(
//!     refusal.to_string(),
//!     "refusal 10: questions are left and the allowance is used up, with 1 taken up; \
//!      allow more explorations, up to 1,000"
//! );
//! # Ok::<(), rauntiko::Refusal>(())
//! ```
//!
//! A book has one of two forms, with room for four or for six places in an atom; [`to_new`] and
//! [`to_old`] copy it from one to the other. Both run alike.
//!
//! [`covers`], [`kept`] and [`keep`] are the search desk's: which of two member records covers
//! the other, and by which [`Map`]; they are told the [`Width`] of the records. [`raw`] has the
//! routines with their plain numbers.
//!
//! Building asks the Rattle kit's `rt`, which must be on the PATH, to prove the routines and to
//! make an archive of them: some minutes the first time, then seconds. Where the variable
//! RAUNTIKO_ARCHIVE names an archive that `rust/archive` made, that one is linked instead.

#![deny(unsafe_code)]
#![warn(missing_docs)]

mod copying;
mod desk;
mod map;
mod print;
pub mod raw;
mod refusal;
#[allow(unsafe_code)]
mod sys;
mod union;
mod width;

pub use copying::{to_new, to_old};
pub use desk::{covers, keep, kept, Kept, Malformed};
pub use map::Map;
pub use refusal::Refusal;
pub use union::{Atom, Member, Members, Term, Terms, Union};
pub use width::Width;

/// Rewrites a book's question: the whole union, or why there is none.
pub fn rewrite(book: &[u8]) -> Result<Union, Refusal> {
    let mut out = vec![0; raw::OUTPUT_ROOM];
    let answer = raw::run(book, &mut out);
    answer.done().map(|length| {
        out.truncate(length);
        Union::written(out, Width::of_book(book))
    })
}
