//! The copying programs once more: `copy-book new` or `copy-book old` reads a book from standard
//! input and writes its bytes in that form, or a line `refused N at P`.

use second::copying::told;
use second::print::INPUT;
use second::width::Width;
use std::io::{Read, Write};
use std::process::ExitCode;

/// Copies the book on standard input into this form.
fn copy(wanted: Width) -> std::io::Result<()> {
    let mut input = Vec::new();
    std::io::stdin()
        .take(INPUT as u64)
        .read_to_end(&mut input)?;
    std::io::stdout().write_all(&told(&input, wanted))
}

/// Copies into the form that is asked for.
fn main() -> ExitCode {
    let words: Vec<String> = std::env::args().skip(1).collect();
    let copied = match words.iter().map(String::as_str).collect::<Vec<_>>()[..] {
        ["new"] => copy(Width::Six),
        ["old"] => copy(Width::Four),
        _ => Err(std::io::Error::other("copy-book new|old")),
    };
    second::finish(copied.map(|()| String::new()).map_err(|e| e.to_string()))
}
