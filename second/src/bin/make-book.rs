//! Turns the source of a book into its bytes: `make-book SOURCE BOOK`.

use second::{book, finish, source};
use std::process::ExitCode;

/// Reads the source and writes the book.
fn make(from: &str, to: &str) -> Result<(), String> {
    let text = std::fs::read_to_string(from).map_err(|e| format!("{from}: {e}"))?;
    let source = source::read(&text).map_err(|what| format!("{from}: {what}"))?;
    std::fs::write(to, book::write(&source.book)).map_err(|e| format!("{to}: {e}"))
}

/// Makes the book, or says what is wrong.
fn main() -> ExitCode {
    let words: Vec<String> = std::env::args().skip(1).collect();
    let made = match &words[..] {
        [from, to] => make(from, to),
        _ => Err("make-book SOURCE BOOK".into()),
    };
    finish(made.map(|()| String::new()))
}
