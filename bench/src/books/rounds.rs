//! Many rounds: hundreds of questions taken up, most of them removed again.

use super::text::{atoms, chain, fan, ordinary, widening, Words};

/// The books of so many rules.
pub fn books(rules: usize) -> Vec<Words> {
    vec![
        ordinary(
            "many rounds",
            "widened",
            widened(rules),
            &widened_question(rules),
        ),
        ordinary(
            "many rounds",
            "opened",
            opened(rules),
            &opened_question(rules),
        ),
    ]
}

/// Words for one thing, words for another, and how many atoms are widened step by step.
fn shape(rules: usize) -> (usize, usize, usize) {
    match rules {
        8 => (3, 2, 5),
        16 => (7, 4, 5),
        _ => (9, 6, 4),
    }
}

/// Pairs of words, and from the narrow form of each pair a step at a time to the widest: each step
/// covers the member taken up, which is removed.
fn widened(rules: usize) -> Vec<String> {
    let (words, others, _) = shape(rules);
    let mut book = chain("w", words - 1, "x");
    book.extend(chain("u", others - 1, "x,y"));
    book.extend((0..others).map(|i| format!("u{i}(x,y) -> u{i}(K,y)")));
    book.extend(widening("g"));
    let more = rules - book.len();
    book.extend(fan("other", more, "x"));
    book
}

/// One pair of words, and narrow atoms.
fn widened_question(rules: usize) -> String {
    let narrow = atoms(shape(rules).2, |i| format!("g(K,K,K,E{i})"));
    format!("w0(D0) u0(K,D1) {narrow}")
}

/// Pairs of words, and atoms whose places hold one variable until a rule opens them: the same
/// without constants, over a path that is asked from end to end.
fn opened(rules: usize) -> Vec<String> {
    let (words, others, _) = opened_shape(rules);
    let mut book = chain("s", words - 1, "x");
    book.extend(chain("t", others - 1, "x"));
    book.push("h(x,y,z,u) -> h(x,x,z,u)".into());
    book.push("h(x,y,z,u) -> h(x,y,x,u)".into());
    let more = rules - book.len();
    book.extend(fan("other", more, "x"));
    book
}

/// Words for one end, words for the other, and how long the path between them is.
fn opened_shape(rules: usize) -> (usize, usize, usize) {
    match rules {
        8 => (4, 4, 6),
        16 => (8, 6, 4),
        _ => (8, 7, 4),
    }
}

/// The path, its ends told by the first pair of words.
fn opened_question(rules: usize) -> String {
    let (_, _, long) = opened_shape(rules);
    let path = atoms(long, |i| format!("h(x{i},x{i},x{i},x{})", i + 1));
    format!("a(x0) : s0(x0) t0(x{long}) {path}")
}
