//! What a map makes of a record, in words: where its variables go, and which of its atoms
//! meets which atom of the other. Cataloguers ask "which words of the general question met
//! which of the special one".

use crate::book::decode_term;
use crate::desk::{question_of, Bytes};
use crate::layout::UNUSED;
use crate::print::{print_answer_record, print_atom, print_term};
use crate::term::{Atom, Term};

/// How a record covers the other by this map: a line for each of its variables, such as
/// `v0 to c1`, then one for its answer record and each of its atoms, such as
/// `r0(v0) meets r0(c1)`, with the first atom of the other that it is sent to.
pub fn meetings(record: &[u8], other: &[u8], width: usize, map: &Bytes) -> String {
    let sound = "a record that covers or is covered is sound";
    let (record, other) = (question_of(record, width), question_of(other, width));
    let (record, other) = (record.expect(sound), other.expect(sound));
    let mut text = went(map);
    if record.is_answered() {
        let (mine, theirs) = (&record.answer, &other.answer);
        text += &line(print_answer_record(mine), print_answer_record(theirs));
    }
    for atom in &record.atoms {
        let met = first_met(atom, &other.atoms, map);
        text += &line(print_atom(atom), print_atom(met));
    }
    text
}

/// A line for each variable that goes somewhere, ascending.
fn went(map: &Bytes) -> String {
    let places = map.iter().enumerate();
    let somewhere = places.filter(|(_, &byte)| byte != UNUSED);
    somewhere
        .map(|(v, &byte)| (Term::Variable(v), decode_term(byte)))
        .map(|(from, to)| format!("{} to {}\n", print_term(&from), print_term(&to)))
        .collect()
}

/// The line for an atom and the one that it meets.
fn line(mine: String, theirs: String) -> String {
    format!("{mine} meets {theirs}\n")
}

/// The first of the atoms that is the image of this one.
fn first_met<'a>(atom: &Atom, atoms: &'a [Atom], map: &Bytes) -> &'a Atom {
    let image = atom.map(|term| match term {
        Term::Variable(v) => decode_term(map[v]),
        Term::Constant(_) => term,
    });
    let first = atoms.iter().find(|other| **other == image);
    first.expect("a map that covers sends every atom to one of the other's")
}
