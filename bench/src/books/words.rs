//! Word lists: terms that are narrower than other terms, asked for in a question of a few atoms.

use super::text::{chain, ordinary, Words};

/// The books of so many rules.
pub fn books(rules: usize) -> Vec<Words> {
    vec![
        ordinary("word lists", "chains", chains(rules), CHAINS),
        ordinary("word lists", "tree", tree(rules), tree_question(rules)),
        ordinary("word lists", "rings", rings(rules), RINGS),
    ]
}

const CHAINS: &str = "a(s) : made(s,m) paper0(m) kept(s,r) room0(r)";

/// Two lists that are asked about, and in the larger books others that are not: a catalogue has
/// more words than a question.
fn chains(rules: usize) -> Vec<String> {
    let lists: &[(&str, usize)] = match rules {
        8 => &[("paper", 4), ("room", 4)],
        16 => &[("paper", 7), ("room", 6), ("ink", 3)],
        _ => &[
            ("ink", 7),
            ("paper", 7),
            ("loan", 6),
            ("room", 6),
            ("wash", 6),
        ],
    };
    let rules = lists
        .iter()
        .flat_map(|&(name, many)| chain(name, many, "x"));
    rules.collect()
}

/// Each word has two narrower ones.
fn tree(rules: usize) -> Vec<String> {
    let rule = |i: usize| format!("t{i}(x) -> t{}(x)", (i - 1) / 2);
    (1..=rules).map(rule).collect()
}

/// Two branches of the tree, joined.
fn tree_question(rules: usize) -> &'static str {
    match rules {
        8 | 16 => "t1(x) mounted(x,y) t2(y)",
        _ => "t3(x) mounted(x,y) t4(y)",
    }
}

const RINGS: &str = "ring0_0(x) beside(x,y) ring1_0(y)";

/// Words that mean the same, in rings: every step round is dropped in the end.
fn rings(rules: usize) -> Vec<String> {
    let (rings, length) = match rules {
        8 => (2, 4),
        16 => (2, 8),
        _ => (4, 8),
    };
    let one =
        |ring: usize, i: usize| format!("ring{ring}_{}(x) -> ring{ring}_{i}(x)", (i + 1) % length);
    let ring = |ring: usize| (0..length).map(move |i| one(ring, i));
    (0..rings).flat_map(ring).collect()
}
