//! This program against the second one, byte for byte.

mod common;

use common::{kept_books, same, same_copies, same_pair};
use second::random::Random;
use second::{generate, limits, pairs};

#[test]
fn kept_books_are_alike() {
    let books = kept_books();
    assert!(books.len() > 60);
    books.iter().for_each(|(name, book)| same(name, book));
}

#[test]
fn books_at_the_limits_are_alike() {
    let books = limits::books();
    books.iter().for_each(|(name, book)| same(name, book));
}

#[test]
fn generated_books_are_alike() {
    let mut random = Random::new(20_000);
    for i in 0..20_000 {
        same(&format!("generated {i}"), &generate::next(&mut random));
    }
}

#[test]
fn copies_and_the_other_forms_are_alike() {
    let mut random = Random::new(30_000);
    let mut books = kept_books();
    books.extend(limits::books());
    books.extend((0..8_000).map(|i| (format!("generated {i}"), generate::next(&mut random))));
    books
        .iter()
        .for_each(|(name, book)| same_copies(name, book));
}

#[test]
fn generated_pairs_are_alike() {
    let mut random = Random::new(100_000);
    (0..100_000).for_each(|_| same_pair(&pairs::next(&mut random)));
}

#[test]
fn a_small_output_is_refused_and_left_alone() {
    for (name, book) in kept_books() {
        let mut out = vec![7; plain::OUTPUT_ROOM - 1];
        let answer = plain::run(&book, &mut out);
        assert_eq!((answer.number, answer.place), (1, 0), "{name}");
        assert!(out.iter().all(|&byte| byte == 7), "{name}");
    }
}
