//! What is made of a seed: ordinary books or pairs, and among them some edge ones.

use crate::Named;
use second::pairs::{self, Pair};
use second::random::Random;
use second::{book, edges, generate};

/// One book in so many is an edge book: it takes the second program as long as thousands of ordinary
/// ones.
pub const BOOKS: usize = 100;

/// One pair in so many is an edge pair.
pub const PAIRS: usize = 8;

/// Of so many, how many are ordinary and how many edge ones, if one in `each` is.
pub fn shares(many: usize, each: usize) -> (usize, usize) {
    (many - many / each, many / each)
}

/// The first of what a generator makes of this seed.
fn first<T>(many: usize, seed: u64, next: impl Fn(&mut Random) -> T) -> Vec<T> {
    let mut random = Random::new(seed);
    (0..many).map(|_| next(&mut random)).collect()
}

/// Books with names by which they are reported.
fn named(books: Vec<Vec<u8>>, what: &str, seed: u64) -> Vec<Named> {
    let name = |(i, book)| (format!("{what} {i} of seed {seed}"), book);
    books.into_iter().enumerate().map(name).collect()
}

/// The first ordinary books of a seed, by number.
pub fn ordinary_books(seed: u64, many: usize) -> Vec<Named> {
    named(first(many, seed, generate::next), "book", seed)
}

/// The first edge books of a seed, by number.
pub fn edge_books(seed: u64, many: usize) -> Vec<Named> {
    let next = |random: &mut Random| book::write(&edges::book(random));
    named(first(many, seed, next), "edge book", seed)
}

/// The first ordinary pairs of a seed.
pub fn ordinary_pairs(seed: u64, many: usize) -> Vec<Pair> {
    first(many, seed, pairs::next)
}

/// The first edge pairs of a seed.
pub fn edge_pairs(seed: u64, many: usize) -> Vec<Pair> {
    first(many, seed, edges::pair)
}
