//! Comparing the second program with other programs, by what they print.

use crate::against::Against;
use crate::show::{first_lines, printed, shown};
use crate::shrink::shrunk;
use crate::Named;
use second::copying::told;
use second::width::Width;
use std::thread;

/// Compares a batch program on the books, the second program in a thread beside it; the first
/// difference, told.
pub fn compare_batch(against: &Against, books: &[Named]) -> Result<(), String> {
    let bytes: Vec<Vec<u8>> = books.iter().map(|(_, bytes)| bytes.clone()).collect();
    let (mine, mut said) = thread::scope(|scope| {
        let said = scope.spawn(|| against.say(&bytes));
        let mine: Vec<Vec<u8>> = bytes.iter().map(|bytes| printed(bytes)).collect();
        (mine, said.join().unwrap())
    });
    if said.trouble.is_some() {
        said = against.say_one_by_one(&bytes);
    }
    for (i, (name, bytes)) in books.iter().enumerate() {
        if said.answers.get(i) != Some(&mine[i]) {
            return Err(difference(against, name, bytes));
        }
    }
    match said.trouble {
        None if said.answers.len() == books.len() => Ok(()),
        None => Err("the other program answers more books than there are".into()),
        Some(what) => Err(format!("the other program: {what}")),
    }
}

/// Compares a printing program, a start for each book.
pub fn compare_program(program: &Against, books: &[Named]) -> Result<(), String> {
    compare_starts("printing program", program, books, printed)
}

/// Compares a program that copies books into this form, a start for each book.
pub fn compare_copier(program: &Against, wanted: Width, books: &[Named]) -> Result<(), String> {
    compare_starts("copying program", program, books, |book| told(book, wanted))
}

/// Compares a program with what the second program writes, a start for each book.
fn compare_starts(
    who: &str,
    program: &Against,
    books: &[Named],
    write: impl Fn(&[u8]) -> Vec<u8>,
) -> Result<(), String> {
    for (name, bytes) in books {
        let (mine, theirs) = (write(bytes), program.print(bytes)?);
        if mine != theirs {
            return Err(format!(
                "DIFFERENCE on {name}:\n{}second program:\n{}{who}:\n{}",
                shown(bytes),
                first_lines(&mine),
                first_lines(&theirs),
            ));
        }
    }
    Ok(())
}

/// A difference, on as small a book as can be found.
fn difference(against: &Against, name: &str, bytes: &[u8]) -> String {
    let differing = |smaller: &[Vec<u8>]| {
        let said = against.say(smaller);
        let mut answered = smaller.iter().zip(&said.answers);
        answered.position(|(bytes, theirs)| *theirs != printed(bytes))
    };
    let small = shrunk(bytes, differing);
    let said = against.say(std::slice::from_ref(&small));
    let theirs = match said.answers.first() {
        Some(answer) => first_lines(answer),
        None => format!("nothing: {:?}\n", said.trouble),
    };
    format!(
        "DIFFERENCE on {name}, made smaller:\n{}second program:\n{}other program:\n{theirs}",
        shown(&small),
        first_lines(&printed(&small)),
    )
}
