//! What the tests share: books from short texts, and their unions in words.

#![allow(dead_code)]

use second::book;
use second::explore::{explore_by, Outcome};
use second::print::print;
use second::seen::Seen;
use second::source::{self, Source};
use second::term::Question;
use second::unify::for_each_choice;
use second::way::Way;

/// The source that stands in `books/` under this name.
pub fn kept(name: &str) -> Source {
    read(&kept_text(name))
}

/// The text of a source in `books/`.
pub fn kept_text(name: &str) -> String {
    let path = format!("{}/../books/{name}.txt", env!("CARGO_MANIFEST_DIR"));
    std::fs::read_to_string(&path).unwrap_or_else(|e| panic!("{path}: {e}"))
}

/// The source of this text.
pub fn read(text: &str) -> Source {
    source::read(text).unwrap_or_else(|what| panic!("{what}\n{text}"))
}

/// What the printing program prints for a source.
pub fn printed(source: &Source) -> String {
    print(&book::write(&source.book))
}

/// The members of a complete run.
pub fn members_by(source: &Source, way: Way) -> Vec<Question> {
    match explore_by(&source.book, way, &mut Seen::default()) {
        Outcome::Complete { members, .. } => members,
        refused => panic!("{refused:?}"),
    }
}

/// The members of a complete run in the source's names.
pub fn told_by(source: &Source, way: Way) -> Vec<String> {
    let members = members_by(source, way);
    members.iter().map(|m| source.tell(m)).collect()
}

/// The members of a kept book in its names.
pub fn told(name: &str) -> Vec<String> {
    told_by(&kept(name), Way::Right)
}

/// The outcome of a source.
pub fn outcome(source: &Source) -> Outcome {
    explore_by(&source.book, Way::Right, &mut Seen::default())
}

/// The refusal of a source.
pub fn refused(source: &Source) -> (usize, usize) {
    match outcome(source) {
        Outcome::Refused { number, place } => (number, place),
        complete => panic!("{complete:?}"),
    }
}

/// The rewriting of each valid choice of the source's question with its first rule, with
/// the choice's number.
pub fn rewritings(source: &Source) -> Vec<(u64, String)> {
    let question = second::form::form(&source.book.question);
    let mut found = Vec::new();
    for_each_choice(&question, &source.book.rules[0], &mut |number, choice| {
        let classes = choice.classes();
        if choice.faults(&classes).is_empty() {
            found.push((number, source.tell(&choice.rewriting(&classes))));
        }
        true
    });
    found
}
