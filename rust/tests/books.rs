//! Every book of `books/` and some thousand generated ones, sound and damaged: the proved
//! routines and the second program give the same numbers and bytes, and what this crate makes
//! of them is what the second program prints.

use rauntiko::{raw, rewrite, Term};
use second::layout::width_of;
use second::random::Random;
use second::{generate, print, term, union};
use std::path::Path;

/// Every book of `books/`, by name.
fn kept() -> Vec<(String, Vec<u8>)> {
    let directory = Path::new(env!("CARGO_MANIFEST_DIR")).join("../books");
    let paths = std::fs::read_dir(directory).unwrap();
    let paths = paths.map(|entry| entry.unwrap().path());
    let books: Vec<(String, Vec<u8>)> = paths
        .filter(|path| path.extension().is_some_and(|e| e == "book"))
        .map(|path| (path.display().to_string(), std::fs::read(path).unwrap()))
        .collect();
    assert!(books.len() > 60, "{}", books.len());
    books
}

/// Every book of `books/` and generated ones, and no byte at all.
fn books() -> Vec<(String, Vec<u8>)> {
    let mut random = Random::new(11);
    let mut books = kept();
    books.extend((0..4000).map(|i| (format!("generated {i}"), generate::next(&mut random))));
    books.push(("empty".into(), Vec::new()));
    books
}

/// More room than is asked for.
const ROOM: usize = raw::OUTPUT_ROOM + 48;

/// An output in which every change can be seen.
fn lent(room: usize) -> Vec<u8> {
    (0..room).map(|i| (i % 251) as u8).collect()
}

#[test]
fn both_sides_give_the_same_numbers_and_bytes() {
    for (name, book) in books() {
        let (mut out, mut other) = (lent(ROOM), lent(ROOM));
        let answer = raw::run(&book, &mut out);
        let theirs = second::run::run(&book, &mut other);
        let numbers = (answer.number as usize, answer.place);
        assert_eq!(numbers, (theirs.number, theirs.place), "{name}");
        assert_eq!(out, other, "{name}");
        let written = if answer.number == 0 { answer.place } else { 0 };
        assert_eq!(out[written..], lent(ROOM)[written..], "{name}");
    }
}

#[test]
fn a_small_output_is_refused_and_left_alone() {
    for (name, book) in kept() {
        for room in [0, 1, raw::OUTPUT_ROOM - 1] {
            let mut out = lent(room);
            let answer = raw::run(&book, &mut out);
            assert_eq!((answer.number, answer.place), (1, 0), "{name}");
            assert_eq!(out, lent(room), "{name}");
        }
        let mut out = lent(raw::OUTPUT_ROOM);
        assert_ne!(raw::run(&book, &mut out).number, 1, "{name}");
    }
}

#[test]
fn a_union_prints_as_the_second_program_prints_it() {
    for (name, book) in books() {
        let text = match rewrite(&book) {
            Ok(union) => union.to_string(),
            Err(refusal) => format!("refused {} at {}\n", refusal.number(), refusal.place()),
        };
        assert_eq!(text, print::print(&book), "{name}");
    }
}

/// A term as the second program has it.
fn plain(term: Term) -> term::Term {
    match term {
        Term::Variable(number) => term::Term::Variable(number.into()),
        Term::Constant(number) => term::Term::Constant(number.into()),
    }
}

/// A member as the second program has it.
fn question(member: rauntiko::Member) -> term::Question {
    let atom = |atom: rauntiko::Atom| {
        let terms = atom.terms().map(plain).collect();
        term::Atom::new(atom.relation().into(), terms)
    };
    term::Question {
        answer: member.answer().map(plain).collect(),
        atoms: member.atoms().map(atom).collect(),
    }
}

#[test]
fn a_union_is_walked_to_every_term() {
    let mut walked = 0;
    for (name, book) in books() {
        let Ok(found) = rewrite(&book) else {
            continue;
        };
        let (members, explored) = union::read(found.as_bytes(), width_of(&book));
        assert_eq!(found.explored(), explored, "{name}");
        assert_eq!(found.members().len(), members.len(), "{name}");
        assert!(found.members().map(question).eq(members), "{name}");
        let records: Vec<u8> = found
            .members()
            .flat_map(|member| member.as_record().to_vec())
            .collect();
        assert_eq!(records, found.as_bytes()[8..], "{name}");
        walked += 1;
    }
    assert!(walked > 1000, "{walked}");
}
