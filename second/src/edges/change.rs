//! Small changes of a book.

use crate::book::{self, Book};
use crate::random::Random;
use crate::seen::Seen;
use crate::term::{Atom, Rule, Term};

/// The book with one small change, sound as it was.
pub fn changed(now: &Book, random: &mut Random) -> Book {
    loop {
        let mut next = now.clone();
        match random.below(10) {
            0 => change_rules(&mut next, random),
            _ => change_atoms(&mut next, random),
        }
        // Writing and reading tells if a count went over its limit or an answer lost its variable.
        let read = book::read(&book::write(&next), &mut Seen::default());
        if read.is_ok_and(|read| read == next) {
            return next;
        }
    }
}

/// A rule more, like one that there is, or one less.
fn change_rules(book: &mut Book, random: &mut Random) {
    if book.rules.is_empty() {
        return;
    }
    let at = random.below(book.rules.len());
    match random.percent(50) {
        true => book.rules.insert(at, book.rules[at].clone()),
        false => drop(book.rules.remove(at)),
    }
}

/// One change in the question or in a rule's body or head.
fn change_atoms(book: &mut Book, random: &mut Random) {
    let (relations, constants) = (book.relations.clone(), book.constants);
    let atoms = one_conjunction(book, random);
    if atoms.is_empty() {
        return;
    }
    let (at, other) = (random.below(atoms.len()), random.below(atoms.len()));
    match random.below(6) {
        0 => atoms.swap(at, other),
        1 => drop(atoms.remove(at)),
        2 => atoms.insert(other, atoms[at].clone()),
        3 => atoms[at].relation = like(atoms[at].relation, &relations, random),
        _ => change_term(&mut atoms[at], constants, random),
    }
}

/// The question's atoms, or those of a rule's body or head.
fn one_conjunction<'b>(book: &'b mut Book, random: &mut Random) -> &'b mut Vec<Atom> {
    if book.rules.is_empty() || random.percent(40) {
        return &mut book.question.atoms;
    }
    let at = random.below(book.rules.len());
    let Rule { body, head } = &mut book.rules[at];
    match random.percent(40) {
        true => body,
        false => head,
    }
}

/// A relation with as many places.
fn like(relation: usize, places: &[usize], random: &mut Random) -> usize {
    let other = random.below(places.len());
    match places[other] == places[relation] {
        true => other,
        false => relation,
    }
}

/// Another term in one place: mostly a variable, new or not.
fn change_term(atom: &mut Atom, constants: usize, random: &mut Random) {
    let at = random.below(atom.terms.len());
    atom.terms[at] = match constants > 0 && random.percent(10) {
        true => Term::Constant(random.below(constants)),
        false => Term::Variable(random.below(20)),
    };
}
