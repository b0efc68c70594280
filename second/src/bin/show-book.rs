//! Shows the bytes of a book as a source: `show-book BOOK`. `make-book` gives the same
//! bytes back.

use second::seen::Seen;
use second::{book, finish, source};
use std::process::ExitCode;

/// The source for the book in this file.
fn show(from: &str) -> Result<String, String> {
    let bytes = std::fs::read(from).map_err(|e| format!("{from}: {e}"))?;
    let read = book::read(&bytes, &mut Seen::default());
    let book = read.map_err(|f| format!("{from}: refused {} at {}", f.number, f.place))?;
    Ok(source::show(&book))
}

/// Shows the book, or says why there is none.
fn main() -> ExitCode {
    let words: Vec<String> = std::env::args().skip(1).collect();
    let shown = match &words[..] {
        [from] => show(from),
        _ => Err("show-book BOOK".into()),
    };
    finish(shown)
}
