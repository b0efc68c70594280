//! The printing program once more: reads a book from standard input and prints its union
//! or its refusal. With `--old-way` one piece at a time, to see what that loses.

use second::print::{print_by, INPUT};
use second::seen::Seen;
use second::way::Way;
use std::io::{Read, Write};

/// Reads the book, runs it and prints.
fn main() -> std::io::Result<()> {
    let word = std::env::args().nth(1);
    let way = Way::named(word.as_deref());
    let mut input = Vec::new();
    std::io::stdin()
        .take(INPUT as u64)
        .read_to_end(&mut input)?;
    let text = print_by(&input, way, &mut Seen::default());
    std::io::stdout().write_all(text.as_bytes())
}
