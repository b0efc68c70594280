//! The union as written.

use crate::atom::{record_length, SIX};
use crate::explore::Explored;
use crate::form::{Form, MEMBER_ATOMS};
use crate::members::MOST_MEMBERS;

/// The length of the four words before the members.
const UNION_HEADER: usize = 8;

/// The most bytes of a member: count, answer record, atoms, all of six places.
const MEMBER: usize = 1 + record_length(SIX) * (1 + MEMBER_ATOMS);

/// The room that the output must have.
pub const OUTPUT_ROOM: usize = UNION_HEADER + MOST_MEMBERS * MEMBER;

/// Writes the union at the front of the output, which has room; its length.
pub fn write<const W: usize>(run: &Explored<W>, out: &mut [u8]) -> usize {
    let mut end = UNION_HEADER;
    for form in run.members.forms() {
        end += write_member(form, &mut out[end..]);
    }
    let words = [run.members.count(), run.explored, UNION_HEADER, end];
    for (word, to) in words.iter().zip(out.chunks_exact_mut(2)) {
        to.copy_from_slice(&(*word as u16).to_le_bytes());
    }
    end
}

/// Writes a member: its count, its answer record if it has one, its atoms; its length.
fn write_member<const W: usize>(form: &Form<W>, out: &mut [u8]) -> usize {
    out[0] = form.count as u8;
    let answer = Some(&form.answer).filter(|answer| answer.used() > 0);
    let mut end = 1;
    for atom in answer.into_iter().chain(form.atoms()) {
        atom.write(&mut out[end..]);
        end += record_length(W);
    }
    end
}
