//! Books that the search towards slow ones has found (`climb`), as it found them.

use crate::task::{Pace, Task, Work};
use second::{book, source};

/// Each with its name.
const FOUND: [(&str, Pace, &str); 2] = [
    (
        "climbed-proved",
        Pace::Heavy,
        include_str!("../../books/climbed-proved.txt"),
    ),
    (
        "climbed-plain",
        Pace::Ordinary,
        include_str!("../../books/climbed-plain.txt"),
    ),
];

/// The books.
pub fn books() -> Vec<Task> {
    let task = |found| task("worst known", found);
    FOUND.iter().map(task).collect()
}

/// A book of this kind that was found, ready to be timed.
pub fn task(kind: &'static str, (name, pace, text): &(&str, Pace, &str)) -> Task {
    let read = source::read(text).unwrap_or_else(|what| panic!("{name}: {what}"));
    Task {
        kind,
        name: name.to_string(),
        rules: read.book.rules.len(),
        pace: *pace,
        work: Work::Run(book::write(&read.book)),
    }
}
