//! Unions near the limit of 64 members.

use super::text::{atoms, fan, ordinary, Words};

/// The books of so many rules.
pub fn books(rules: usize) -> Vec<Words> {
    vec![
        ordinary("near 64 members", "lists", lists(rules), &question(rules)),
        ordinary(
            "near 64 members",
            "wide",
            wide(rules),
            &wide_question(rules),
        ),
        ordinary(
            "near 64 members",
            "same",
            same(rules),
            &same_question(rules),
        ),
    ]
}

/// How many narrower words each list has: the product of their numbers, each one more, is 60 or 64.
fn sizes(rules: usize) -> &'static [usize] {
    match rules {
        8 => &[4, 2, 1, 1],
        16 => &[14, 1, 1],
        _ => &[31, 1],
    }
}

/// Lists whose words stand alone.
fn lists(rules: usize) -> Vec<String> {
    let sizes = sizes(rules).iter().enumerate();
    sizes
        .flat_map(|(i, &many)| fan(&format!("l{i}_"), many, "x"))
        .collect()
}

/// One atom for each list.
fn question(rules: usize) -> String {
    atoms(sizes(rules).len(), |i| format!("l{i}_0(x)"))
}

/// The same lists with two places.
fn wide(rules: usize) -> Vec<String> {
    let sizes = sizes(rules).iter().enumerate();
    sizes
        .flat_map(|(i, &many)| fan(&format!("l{i}_"), many, "x,y"))
        .collect()
}

/// One atom for each list, up to eight with others that no rule meets: every member has eight.
fn wide_question(rules: usize) -> String {
    let lists = sizes(rules).len();
    let asked = atoms(lists, |i| format!("l{i}_0(x{i},x{})", i + 1));
    let others = atoms(8 - lists, |i| format!("b(y{i},x{})", i % (lists + 1)));
    format!("a(x0,x1) : {asked} {others}")
}

/// One list, seven narrower words (three for three things), and others that are not asked about.
fn same(rules: usize) -> Vec<String> {
    let mut book = fan("p", if rules == 16 { 3 } else { 7 }, "x");
    let more = rules - book.len();
    book.extend(fan("other", more, "x"));
    book
}

/// The same word asked of two or three named things: 64 members.
fn same_question(rules: usize) -> String {
    atoms(if rules == 16 { 3 } else { 2 }, |i| format!("p0(C{i})"))
}
