//! Runs the source of a book and tells the union in the source's own names:
//! `tell SOURCE [--old-way]`.

use second::explore::{explore_by, Outcome};
use second::seen::Seen;
use second::way::Way;
use second::{finish, source};
use std::process::ExitCode;

/// The union of this source, a line a member, or the refusal.
fn tell(from: &str, way: Way) -> Result<String, String> {
    let text = std::fs::read_to_string(from).map_err(|e| format!("{from}: {e}"))?;
    let source = source::read(&text).map_err(|what| format!("{from}: {what}"))?;
    match explore_by(&source.book, way, &mut Seen::default()) {
        Outcome::Refused { number, place } => Ok(format!("refused {number} at {place}\n")),
        Outcome::Complete { members, explored } => {
            let mut told = format!("members {} explored {explored}\n", members.len());
            for member in &members {
                told += &source.tell(member);
                told.push('\n');
            }
            Ok(told)
        }
    }
}

/// Tells the union, or says what is wrong.
fn main() -> ExitCode {
    let words: Vec<String> = std::env::args().skip(1).collect();
    let words: Vec<&str> = words.iter().map(|word| word.as_str()).collect();
    let told = match words[..] {
        [from] => tell(from, Way::Right),
        [from, "--old-way"] | ["--old-way", from] => tell(from, Way::OnePiece),
        _ => Err("tell SOURCE [--old-way]".into()),
    };
    finish(told)
}
