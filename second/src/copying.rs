//! A book from one form to the other: "Provide old to new and back, one already in the wanted
//! form copied; there and back gives the first bytes again."

use crate::book;
use crate::layout::{self, Header};
use crate::run::{answer, Answer};
use crate::seen::{Behaviour, Seen};
use crate::width::Width;

/// "in copying, 1 for room under 2,003 bytes": the largest book in the new form.
pub const BOOK_ROOM: usize = 2003;

/// Copies a book into the new form: 0 with the copy's length, or a refusal; "a refused copy is
/// unwritten".
pub fn to_new(bytes: &[u8], output: &mut [u8]) -> Answer {
    copy_by(bytes, output, Width::Six, &mut Seen::default())
}

/// Copies a book into the old form.
pub fn to_old(bytes: &[u8], output: &mut [u8]) -> Answer {
    copy_by(bytes, output, Width::Four, &mut Seen::default())
}

/// Copies a book into this form, counting what is met.
pub fn copy_by(bytes: &[u8], output: &mut [u8], wanted: Width, seen: &mut Seen) -> Answer {
    if output.len() < BOOK_ROOM {
        seen.mark(Behaviour::CopyTooSmall);
        return answer(1, 0);
    }
    let mut book = match book::read(bytes, seen) {
        Ok(book) => book,
        Err(fault) => return answer(fault.number, fault.place),
    };
    if let Some(place) = no_form(bytes, wanted, seen) {
        return answer(13, place);
    }
    seen.mark_if(book.width == wanted, Behaviour::CopiedAsItIs);
    seen.mark_if(book.width < wanted, Behaviour::CopiedToNew);
    seen.mark_if(book.width > wanted, Behaviour::CopiedToOld);
    book.width = wanted;
    let copy = book::write(&book);
    output[..copy.len()].copy_from_slice(&copy);
    answer(0, copy.len())
}

/// What a copying program writes: the copy's bytes, or a line with the refusal.
pub fn told(bytes: &[u8], wanted: Width) -> Vec<u8> {
    let mut output = vec![0; BOOK_ROOM];
    let Answer { number, place } = copy_by(bytes, &mut output, wanted, &mut Seen::default());
    match number {
        0 => output[..place].to_vec(),
        _ => format!("refused {number} at {place}\n").into_bytes(),
    }
}

/// The earliest byte of a sound book that this form does not have: "no old form, exactly when a
/// sound book has a relation of over four places or a variable above 31".
fn no_form(bytes: &[u8], wanted: Width, seen: &mut Seen) -> Option<usize> {
    let header = Header::of(bytes).expect("a sound book has a header");
    let relations = header.width.header()..header.rules_begin();
    let is_wide = |at: &usize| bytes[*at] as usize > wanted.places();
    let is_high = |at: &usize| (wanted.variables()..128).contains(&(bytes[*at] as usize));
    let wide = relations.filter(is_wide).min();
    let high = places(&header, bytes).into_iter().filter(is_high).min();
    seen.mark_if(wide.is_some(), Behaviour::NoOldFormPlaces);
    seen.mark_if(
        wide.is_none() && high.is_some(),
        Behaviour::NoOldFormVariable,
    );
    seen.mark_if(wide.is_some() && high.is_some(), Behaviour::NoOldFormBoth);
    wide.into_iter().chain(high).min()
}

/// Where the places of the rules' atoms, the answer record and the question's atoms stand.
fn places(header: &Header, bytes: &[u8]) -> Vec<usize> {
    let rules = layout::rules(header, bytes).found;
    let in_rules = rules
        .iter()
        .flat_map(|rule| rule.body.iter().chain(&rule.head));
    let answer = header.is_answered().then_some(header.question_at);
    let atoms = in_rules
        .copied()
        .chain(answer)
        .chain(header.question_atoms());
    atoms
        .flat_map(|at| at + 1..at + header.width.atom())
        .collect()
}
