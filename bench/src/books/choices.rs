//! The worst books by their choices, and the longest run.

use super::text::{atoms, chain, widening, Words};
use crate::task::Pace;

/// The books.
pub fn books() -> Vec<Words> {
    let valid = |many: usize| (0..many).map(valid).collect::<Vec<String>>();
    let (pace, heavy) = (Pace::Ordinary, Pace::Heavy);
    vec![
        worst("choices-valid", valid(1), &apart(8), pace),
        worst("choices-hardly-valid", vec![HARDLY.into()], STAR, pace),
        worst("choices-none-valid", vec![SHARED.into()], HELD, pace),
        worst("choices-two-constants", vec![EQUAL.into()], &named(8), pace).allowing(1),
        worst("choices-valid-4-rules", valid(4), &apart(8), heavy),
        worst("choices-valid-32-rules", valid(32), &apart(8), heavy),
        worst(
            "choices-many-rounds",
            rounds(3, 1),
            &rounds_question(),
            heavy,
        ),
        worst(
            "choices-most-rounds",
            rounds(16, 3),
            &rounds_question(),
            Pace::Slow,
        ),
        worst("explorations-1000", thousand(), &thousand_question(), pace),
    ]
}

/// A book among the worst.
pub fn worst(name: &str, rules: Vec<String>, question: &str, pace: Pace) -> Words {
    Words {
        kind: "worst known",
        name: name.into(),
        rules,
        question: question.into(),
        allowed: 1000,
        pace,
    }
}

/// Four head atoms that any question atom may go to: with eight of them all 390,624 choices are
/// valid.
fn valid(i: usize) -> String {
    format!("q{i}(a,b,c,d) -> p(a) p(b) p(c) p(d)")
}

/// So many atoms that share nothing.
fn apart(many: usize) -> String {
    atoms(many, |i| format!("p(x{i})"))
}

/// Four unknowns that a shared variable may meet: of 390,624 choices four are valid, those that send
/// every atom to the same head atom.
const HARDLY: &str = "q(x) -> p(x,a) p(x,b) p(x,c) p(x,d)";

/// Eight atoms that share one variable.
const STAR: &str = "p(x0,y) p(x1,y) p(x2,y) p(x3,y) p(x4,y) p(x5,y) p(x6,y) p(x7,y)";

/// One unknown in every head atom.
const SHARED: &str = "q(a,b,c,d) -> p(a,y) p(b,y) p(c,y) p(d,y)";

/// Seven atoms that share a variable, and an eighth by which it meets no unknown: left, it holds the
/// variable, and sent, it puts a frontier variable beside the unknown. Only whole choices tell.
const HELD: &str = "p(x0,y) p(x1,y) p(x2,y) p(x3,y) p(x4,y) p(x5,y) p(x6,y) p(y,z)";

/// Four head atoms that are one: of 390,624 choices 32 are valid, those that send one atom; the
/// others put two constants in one class.
const EQUAL: &str = "q(x) -> p(x) p(x) p(x) p(x)";

/// So many atoms of different things.
fn named(many: usize) -> String {
    atoms(many, |i| format!("p(C{i})"))
}

/// So many words, three steps of widening for each, and so many rules by which all choices are
/// valid: the seven atoms that those meet stand in a question for each word and step.
fn rounds(words: usize, many: usize) -> Vec<String> {
    let word = |i: usize| format!("u(x,y,z,W{i}) -> u(x,y,z,W{})", i - 1);
    let mut book: Vec<String> = (1..words).map(word).collect();
    book.extend(widening("u"));
    book.extend((0..many).map(valid));
    book
}

/// Seven atoms that share nothing, and a narrow word.
fn rounds_question() -> String {
    format!("{} u(K,K,K,W0)", apart(7))
}

/// Fifty pairs of words, and twenty steps from the narrowest form of each to the widest: every
/// step's rewriting covers the member taken up, which is removed. 1,000 questions are taken up.
fn thousand() -> Vec<String> {
    let mut book = chain("w", 9, "x");
    book.extend(chain("u", 4, "x,y"));
    book.extend((0..5).map(|i| format!("u{i}(x,y) -> u{i}(K,y)")));
    book.extend(widening("g"));
    book
}

/// The narrowest form of the first pair.
fn thousand_question() -> String {
    let narrow = atoms(6, |i| format!("g(K,K,K,E{i})"));
    format!("w0(D0) u0(K,D1) {narrow}")
}
