//! The comparer as a command, the programs that it starts, and the shrinking.

use compare::against::Against;
use compare::generated::ordinary_pairs;
use compare::programs::{compare_batch, compare_copier, compare_program};
use compare::{shrink, Named};
use second::print::print;
use second::random::Random;
use second::seen::Seen;
use second::width::Width;
use second::{book, generate, limits, pairs};
use std::process::Command;
use std::time::Duration;

/// The first books of a seed.
fn generated(seed: u64, many: usize) -> Vec<Vec<u8>> {
    let mut random = Random::new(seed);
    (0..many).map(|_| generate::next(&mut random)).collect()
}

/// A program that may take a minute.
fn program(command: &[&str]) -> Against {
    let words = command.iter().map(|word| word.to_string());
    Against::new(words.collect(), Duration::from_secs(60))
}

/// The batch program.
const BATCH: &str = env!("CARGO_BIN_EXE_batch");

/// Runs a command of this package; whether it succeeded, and what it wrote.
fn command(path: &str, words: &[&str]) -> (bool, String) {
    let ended = Command::new(path).args(words).output().unwrap();
    let text = String::from_utf8_lossy(&ended.stdout).into_owned();
    (ended.status.success(), text)
}

#[test]
fn the_batch_program_answers_each_book() {
    let books = generated(5, 200);
    let said = program(&[BATCH]).say(&books);
    assert!(said.trouble.is_none());
    assert_eq!(said.answers.len(), books.len());
    for (book, answer) in books.iter().zip(&said.answers) {
        assert_eq!(print(book).as_bytes(), &answer[..]);
    }
}

#[test]
fn the_batch_program_answers_each_pair() {
    let pairs = ordinary_pairs(9, 2000);
    let framed = pairs.iter().filter_map(|pair| Some((pair, pair.frame()?)));
    let (asked, frames): (Vec<_>, Vec<_>) = framed.unzip();
    let said = program(&[BATCH, "--desk"]).say_of(frames.concat());
    assert!(said.answers.len() == asked.len() && asked.len() > 1900);
    for (pair, answer) in asked.into_iter().zip(&said.answers) {
        assert_eq!(pairs::answer(pair).as_bytes(), &answer[..]);
    }
}

#[test]
fn a_program_that_is_not_there_is_told_of() {
    let said = program(&["no-such-program"]).say(&generated(6, 2));
    assert!(said.answers.is_empty() && said.trouble.is_some());
}

#[test]
fn a_program_that_fails_is_told_of_with_the_book() {
    let script = "while read -r line; do :; done; exit 3";
    let books = [("the book".to_string(), generated(7, 1).remove(0))];
    let told = compare_batch(&program(&["sh", "-c", script]), &books).unwrap_err();
    assert!(
        told.contains("the book") && told.contains("nothing"),
        "{told}"
    );
}

#[test]
fn the_printing_program_is_compared_by_itself() {
    let mut books: Vec<Named> = limits::books();
    books.retain(|(name, _)| name.ends_with(" bytes") || name.contains("largest"));
    assert!(books.iter().any(|(_, bytes)| bytes.len() > 65_536));
    let right = program(&[BATCH, "--one"]);
    assert_eq!(compare_program(&right, &books), Ok(()));
    assert!(compare_program(&program(&[BATCH]), &books).is_err());
}

#[test]
fn the_copying_programs_are_compared_by_themselves() {
    let mut books: Vec<Named> = limits::books();
    books.retain(|(name, _)| name.starts_with("new: ") || name.contains("largest"));
    let copier = |word: &str| program(&[BATCH, "--copy", word]);
    for (word, other, wanted) in [("new", "old", Width::Six), ("old", "new", Width::Four)] {
        assert_eq!(compare_copier(&copier(word), wanted, &books), Ok(()));
        let told = compare_copier(&copier(other), wanted, &books).unwrap_err();
        assert!(told.contains("copying program"), "{told}");
    }
}

#[test]
fn the_comparer_shows_a_small_book_where_the_old_way_differs() {
    let words = ["--count", "0", "--against", BATCH, "--old-way"];
    let (fine, text) = command(env!("CARGO_BIN_EXE_compare"), &words);
    assert!(!fine && text.contains("DIFFERENCE on 000-example-2.book"));
    assert!(text.contains("question r1(v0,v1) r1(v1,v0)"), "{text}");
}

#[test]
fn the_comparer_meets_every_behaviour_and_no_difference() {
    let words = ["--count", "700", "--threads", "2", "--against", BATCH];
    let (fine, text) = command(env!("CARGO_BIN_EXE_compare"), &words);
    assert!(fine, "{text}");
    // Two edge books are left out.
    assert!(text.contains("generated: 698 books "), "{text}");
    assert!(text.contains("\n3 sides: "), "{text}");
    assert!(
        text.contains("\nslowest for the proved routines: "),
        "{text}"
    );
    assert!(
        text.contains("\nedge books 7, of them passed over "),
        "{text}"
    );
    assert!(text.trim_end().ends_with("differences 0"), "{text}");
    let nowhere = ["--count", "0", "--books", "no-such-directory"];
    let (fine, text) = command(env!("CARGO_BIN_EXE_compare"), &nowhere);
    assert!(!fine && text.contains("no-such-directory"), "{text}");
}

#[test]
fn the_desk_is_compared_in_the_process_and_with_a_program() {
    let path = env!("CARGO_BIN_EXE_compare-desk");
    let right = ["--count", "5000", "--against", BATCH, "--desk"];
    let (fine, text) = command(path, &right);
    assert!(fine, "{text}");
    assert!(text.ends_with("pairs 5000, differences 0\n"), "{text}");
    assert!(
        text.contains("\nedge pairs 620, of them passed over "),
        "{text}"
    );
    assert!(text.contains("\n3 sides: "), "{text}");
    let (fine, text) = command(path, &["--count", "10", "--against", BATCH]);
    assert!(!fine && text.contains("DIFFERENCE"), "{text}");
    let mapless = format!("{BATCH} --desk | grep -v ' to '");
    let (fine, text) = command(path, &["--count", "10", "--against", "sh", "-c", &mapless]);
    assert!(!fine && text.contains("DIFFERENCE"), "{text}");
    let (fine, text) = command(path, &["--books", "."]);
    assert!(!fine && text == "--books is not known\n", "{text}");
}

#[test]
fn what_takes_longer_than_the_limit_is_shown() {
    let (compare, desk) = (
        env!("CARGO_BIN_EXE_compare"),
        env!("CARGO_BIN_EXE_compare-desk"),
    );
    let (fine, text) = command(compare, &["--count", "0", "--limit", "0"]);
    assert!(!fine && text.starts_with("TOO SLOW: "), "{text}");
    assert!(text.contains("\nquestion r"), "{text}");
    let (fine, text) = command(desk, &["--count", "10", "--limit", "0"]);
    assert!(!fine && text.starts_with("TOO SLOW: "), "{text}");
    assert!(text.contains("\nfirst ["), "{text}");
    let (fine, text) = command(desk, &["--count", "5000", "--limit", "60.5"]);
    assert!(fine, "{text}");
    for wrong in ["soon", "-1"] {
        let (fine, text) = command(desk, &["--limit", wrong]);
        assert!(!fine && text == "--limit wants seconds\n", "{text}");
    }
}

#[test]
fn smaller_books_are_sound() {
    let mut random = Random::new(8);
    for _ in 0..200 {
        let whole = generate::sound(&mut random);
        for smaller in shrink::smaller(&whole) {
            let bytes = book::write(&smaller);
            assert!(book::read(&bytes, &mut Seen::default()).is_ok());
            assert!(bytes.len() <= book::write(&whole).len());
        }
    }
}
