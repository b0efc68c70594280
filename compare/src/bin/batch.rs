//! The second program as a batch program: what `compare --against` and, with `--desk`,
//! `compare-desk --against` read and write. With `--one` it prints one book, as a printing
//! program does; with `--copy new` or `--copy old` it copies one into that form. With the word for a wrong shortcut, such as `--old-way`, it is a program to
//! be caught.

use second::copying::told;
use second::pairs::{self, Pair};
use second::print::{print, print_by};
use second::seen::Seen;
use second::way::Way;
use second::width::Width;
use std::io::{Read, Write};

/// The byte string at the front of the input, after its length of four bytes, and what follows;
/// none if it is not all there.
fn frame(input: &[u8]) -> Option<(&[u8], &[u8])> {
    let (length, rest) = input.split_first_chunk()?;
    rest.split_at_checked(u32::from_le_bytes(*length) as usize)
}

/// The pair at the front of the input, a byte for the width and two records, and what follows.
fn pair(input: &[u8]) -> Option<(Pair, &[u8])> {
    let (&width, rest) = input.split_first()?;
    let (first, rest) = frame(rest)?;
    let (second, rest) = frame(rest)?;
    let pair = Pair {
        width: width.into(),
        first: first.to_vec(),
        second: second.to_vec(),
    };
    Some((pair, rest))
}

/// What stands at the front of some input, and what follows.
type Front<'i, T> = Option<(T, &'i [u8])>;

/// What stands in the input, one after the other, as long as there is one more.
fn all<'i, T>(mut input: &'i [u8], next: fn(&'i [u8]) -> Front<'i, T>) -> Vec<T> {
    let one = || {
        let (item, rest) = next(input)?;
        input = rest;
        Some(item)
    };
    std::iter::from_fn(one).collect()
}

/// What the desk says about each pair of records.
fn desk(input: &[u8]) -> Vec<String> {
    all(input, pair).iter().map(pairs::answer).collect()
}

/// What is printed for each book.
fn books(input: &[u8], way: Way) -> Vec<String> {
    let print = |book: &&[u8]| print_by(book, way, &mut Seen::default());
    all(input, frame).iter().map(print).collect()
}

/// The form that the second word asks for.
fn wanted() -> Width {
    match std::env::args().nth(2).as_deref() {
        Some("new") => Width::Six,
        _ => Width::Four,
    }
}

/// Answers every book or pair of records in the input.
fn main() -> std::io::Result<()> {
    let word = std::env::args().nth(1);
    let way = Way::named(word.as_deref());
    let mut input = Vec::new();
    std::io::stdin().read_to_end(&mut input)?;
    match word.as_deref() {
        Some("--one") => return std::io::stdout().write_all(print(&input).as_bytes()),
        Some("--copy") => return std::io::stdout().write_all(&told(&input, wanted())),
        _ => {}
    }
    let answers = match word.as_deref() == Some("--desk") {
        true => desk(&input),
        false => books(&input, way),
    };
    let mut output = std::io::BufWriter::new(std::io::stdout());
    for answer in answers {
        writeln!(output, "{answer}.")?;
    }
    output.flush()
}
