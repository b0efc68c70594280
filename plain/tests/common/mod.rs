//! What the tests share: both programs asked the same.

#![allow(dead_code)]

use plain::{BOOK_ROOM, OUTPUT_ROOM};
use second::book;
use second::copying::{to_new, to_old};
use second::pairs::Pair;
use second::source;
use second::width::{Width, WIDTHS};
use std::fs;
use std::path::PathBuf;
use std::time::{Duration, Instant};

/// What stands in the output before a run, so that every change shows.
const BEFORE: u8 = 0xa5;

/// More room than is asked for.
const ROOM: usize = OUTPUT_ROOM + 100;

/// The bytes of the book of this text.
pub fn book_of(text: &str) -> Vec<u8> {
    let source = source::read(text).unwrap_or_else(|what| panic!("{what}\n{text}"));
    book::write(&source.book)
}

/// The books that stand in `books/`, by name.
pub fn kept_books() -> Vec<(String, Vec<u8>)> {
    let directory = PathBuf::from(concat!(env!("CARGO_MANIFEST_DIR"), "/../books"));
    let mut books = Vec::new();
    for entry in fs::read_dir(directory).unwrap() {
        let path = entry.unwrap().path();
        if path.extension().is_some_and(|kind| kind == "book") {
            let name = path.file_stem().unwrap().to_string_lossy().into_owned();
            books.push((name, fs::read(path).unwrap()));
        }
    }
    books.sort();
    books
}

/// The book that stands in `books/` under this name.
pub fn kept_book(name: &str) -> Vec<u8> {
    let directory = concat!(env!("CARGO_MANIFEST_DIR"), "/../books");
    fs::read(format!("{directory}/{name}.book")).unwrap()
}

/// The answer of this program and the whole output after it.
pub fn run(book: &[u8]) -> ((usize, usize), Vec<u8>) {
    let mut out = vec![BEFORE; ROOM];
    let answer = plain::run(book, &mut out);
    ((answer.number as usize, answer.place), out)
}

/// The same of the second program.
fn run_second(book: &[u8]) -> ((usize, usize), Vec<u8>) {
    let mut out = vec![BEFORE; ROOM];
    let answer = second::run::run(book, &mut out);
    ((answer.number, answer.place), out)
}

/// Both programs give the same answer and the same output, which a refusal leaves alone.
pub fn same(name: &str, book: &[u8]) {
    let (answer, out) = run(book);
    let (expected, second) = run_second(book);
    assert_eq!(answer, expected, "{name}: {book:?}");
    assert!(out == second, "{name}: the outputs differ: {book:?}");
    let written = if answer.0 == 0 { answer.1 } else { 0 };
    assert!(out[written..].iter().all(|&byte| byte == BEFORE), "{name}");
}

/// Both programs say the same of a pair, and of the pair turned round.
pub fn same_pair(pair: &Pair) {
    let width = pair.width;
    for Pair { first, second, .. } in [pair.clone(), pair.turned()] {
        let (a, b) = (&first[..], &second[..]);
        let covers = second::desk::covers(a, b, width).number;
        assert_eq!(plain::covers(a, b, width), covers, "{width} {a:?} {b:?}");
        let kept = second::desk::kept(a, b, width).which;
        assert_eq!(plain::kept(a, b, width), kept, "{width} {a:?} {b:?}");
    }
}

/// The number and the place of a copy, and the whole room after it.
type Copy = ((usize, usize), Vec<u8>);

/// What this program makes of a book in the new form or the old one, in so much room.
fn copied(book: &[u8], wanted: Width, room: usize) -> Copy {
    let mut out = vec![BEFORE; room];
    let answer = match wanted {
        Width::Six => plain::to_new(book, &mut out),
        Width::Four => plain::to_old(book, &mut out),
    };
    ((answer.number as usize, answer.place), out)
}

/// The same of the second program.
fn copied_second(book: &[u8], wanted: Width, room: usize) -> Copy {
    let mut out = vec![BEFORE; room];
    let answer = match wanted {
        Width::Six => to_new(book, &mut out),
        Width::Four => to_old(book, &mut out),
    };
    ((answer.number, answer.place), out)
}

/// Both programs copy a book alike, in any room, and run its other form alike if it has one.
pub fn same_copies(name: &str, book: &[u8]) {
    for wanted in WIDTHS {
        for room in [0, BOOK_ROOM - 1, BOOK_ROOM, BOOK_ROOM + 9] {
            let copy = copied(book, wanted, room);
            let expected = copied_second(book, wanted, room);
            assert!(copy == expected, "{name}: {:?} {:?}", copy.0, expected.0);
        }
        let ((number, length), out) = copied(book, wanted, BOOK_ROOM);
        if number == 0 && out[..length] != *book {
            same(name, &out[..length]);
            let back = copied(&out[..length], wanted.other(), BOOK_ROOM);
            assert_eq!(back.1[..back.0 .1], *book, "{name}");
        }
    }
}

/// Does it within a time that a hanging shape would not.
pub fn within<T>(seconds: u64, what: &str, act: impl FnOnce() -> T) -> T {
    let start = Instant::now();
    let done = act();
    let took = start.elapsed();
    assert!(took < Duration::from_secs(seconds), "{what} took {took:?}");
    done
}
