//! Edge books, each as large as is legal: 32 rules, heads of four atoms, eight question atoms. The
//! second program makes such books at random, `second::edges`; these stand for their kinds.

use super::climbed;
use super::text::{atoms, widening, Words};
use crate::task::{Pace, Task};

/// The books.
pub fn books() -> Vec<Task> {
    let found = FOUND.iter().map(|found| climbed::task(KIND, found));
    thought_of()
        .into_iter()
        .map(Words::task)
        .chain(found)
        .collect()
}

/// What they are called in the table.
const KIND: &str = "edges";

/// The slowest that the comparer met, as they were made, each with its name.
const FOUND: [(&str, Pace, &str); 7] = [
    (
        "edges-found-knot-and-ring",
        Pace::Slow,
        include_str!("../../books/edge-knot-and-ring.txt"),
    ),
    (
        "edges-found-equal-heads",
        Pace::Heavy,
        include_str!("../../books/edge-equal-heads.txt"),
    ),
    (
        "edges-found-unrelated-then-clique",
        Pace::Slow,
        include_str!("../../books/edge-unrelated-then-clique.txt"),
    ),
    (
        "edges-found-valid-in-rounds",
        Pace::Slow,
        include_str!("../../books/edge-valid-in-rounds.txt"),
    ),
    (
        "edges-found-answered-in-rounds",
        Pace::Slow,
        include_str!("../../books/edge-answered-in-rounds.txt"),
    ),
    (
        "edges-found-answered",
        Pace::Heavy,
        include_str!("../../books/edge-answered.txt"),
    ),
    (
        "edges-found-answered-star",
        Pace::Heavy,
        include_str!("../../books/edge-answered-star.txt"),
    ),
];

/// Those that were thought of.
fn thought_of() -> Vec<Words> {
    let all = |head: &str, question: &str| (many(32, head), question.to_string());
    let books = [
        ("unrelated-6-then-ring", unrelated()),
        ("held", all(ONE_UNKNOWN, &held(7))),
        ("held-many-rounds", in_rounds(ONE_UNKNOWN, &held(6))),
        ("hardly-valid", all(OWN_UNKNOWNS, &star(8))),
        ("two-constants", all(EQUAL, &named(8))),
        ("equal-heads", all(EQUAL, &apart(8))),
        ("equal-heads-third-shared", all(EQUAL_WIDE, &third_shared())),
        ("ring", all(PAIRS, &ring(8))),
        ("ring-and-an-arrow", all(PAIRS, &ring_and_arrow())),
        ("knot", all(KNOT, &ring(8))),
        ("knot-many-rounds", in_rounds(KNOT, &ring(7))),
        ("grown-ring", all(GROWN, &ring(8))),
        ("valid-many-rounds", in_rounds(LOOSE, &apart(7))),
        ("new-valid", all(LOOSE_SIX, &apart_six())),
    ];
    books.into_iter().map(words).collect()
}

/// A book of these rules and this question.
fn words((name, (rules, question)): (&str, (Vec<String>, String))) -> Words {
    Words {
        kind: KIND,
        name: format!("edges-{name}"),
        rules,
        question,
        allowed: 1000,
        pace: pace(name),
    }
}

/// How long it takes.
fn pace(name: &str) -> Pace {
    match name {
        "knot-many-rounds" => Pace::Slow,
        "knot" | "equal-heads-third-shared" => Pace::Heavy,
        _ => Pace::Ordinary,
    }
}

/// Four head atoms that any atoms that share nothing may go to.
const LOOSE: &str = "p(a,e) p(b,f) p(c,g) p(d,h)";

/// The same of six places.
const LOOSE_SIX: &str = "p(a,e,i,j,k,l) p(b,f,m,n,o,q) p(c,g,r,s,t,u) p(d,h,v,w,x,y)";

/// One unknown in every head atom.
const ONE_UNKNOWN: &str = "p(a,y) p(b,y) p(c,y) p(d,y)";

/// An unknown of its own in every head atom.
const OWN_UNKNOWNS: &str = "p(a,e) p(a,f) p(a,g) p(a,h)";

/// Head atoms that are one.
const EQUAL: &str = "p(a,b) p(a,b) p(a,b) p(a,b)";

/// The same with an unknown in a third place.
const EQUAL_WIDE: &str = "p(a,b,y) p(a,b,y) p(a,b,y) p(a,b,y)";

/// Four arrows between four points.
const PAIRS: &str = "p(a,b) p(c,d) p(a,c) p(b,d)";

/// Head atoms in which everything meets.
const KNOT: &str = "p(a,b) p(b,a) p(a,a) p(b,b)";

/// A path through unknowns, and an arrow beside it.
const GROWN: &str = "p(a,u) p(u,v) p(v,b) p(c,d)";

/// So many rules with this head, each with a body of its own.
fn many(rules: usize, head: &str) -> Vec<String> {
    let rule = |i: usize| format!("q{i}(a,b,c,d) -> {head}");
    (0..rules).map(rule).collect()
}

/// Sixteen words and three steps of widening, by which the question comes again and again, and as
/// many rules with this head as there is room for.
fn in_rounds(head: &str, question: &str) -> (Vec<String>, String) {
    let word = |i: usize| format!("u(x,y,z,W{}) -> u(x,y,z,W{i})", i + 1);
    let mut rules: Vec<String> = (0..15).map(word).collect();
    rules.extend(widening("u"));
    rules.extend(many(32 - rules.len(), head));
    (rules, format!("{question} u(K,K,K,W0)"))
}

/// So many arrows that share nothing.
fn apart(many: usize) -> String {
    atoms(many, |i| format!("p(x{i},y{i})"))
}

/// Eight atoms of six places that share nothing.
fn apart_six() -> String {
    atoms(8, |i| format!("p(a{i},b{i},c{i},d{i},e{i},f{i})"))
}

/// So many arrows from different things.
fn named(many: usize) -> String {
    atoms(many, |i| format!("p(C{i},y{i})"))
}

/// So many arrows into one point.
fn star(many: usize) -> String {
    atoms(many, |i| format!("p(x{i},y)"))
}

/// So many arrows into one point, and one from it, which holds it.
fn held(many: usize) -> String {
    format!("{} p(y,z)", star(many))
}

/// A ring of so many arrows.
fn ring(many: usize) -> String {
    atoms(many, |i| format!("p(x{i},x{})", (i + 1) % many))
}

/// A ring of seven, and an arrow that hangs on it.
fn ring_and_arrow() -> String {
    format!("{} p(x0,z)", ring(7))
}

/// Six atoms and a ring of two that share nothing but what stands in their third place.
fn third_shared() -> String {
    let apart = atoms(6, |i| format!("p(x{i},y{i},t)"));
    format!("{apart} p(z,w,t) p(w,z,t)")
}

/// Six unrelated arrows, then a ring that has no place where the second rule leaves arrows.
fn unrelated() -> (Vec<String>, String) {
    let rules = [
        "s(a,b,c,d) -> p(a,b) p(b,a)",
        "s(a,b,c,d) p(e,f) p(g,h) p(i,j) -> p(a,b) p(b,c) p(c,d) p(a,d)",
    ];
    let question = format!("{} p(z,w) p(w,z)", apart(6));
    (rules.map(String::from).into(), question)
}
