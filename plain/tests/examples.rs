//! The build paper's examples, most through the books that are kept.

mod common;

use common::{kept_book, run, same};

/// The number and the place of a kept book, and the counts of members and questions explored
/// if it is complete.
fn told(name: &str) -> (usize, usize, Option<(u8, u8)>) {
    let book = kept_book(name);
    same(name, &book);
    let ((number, place), out) = run(&book);
    let counts = (number == 0).then(|| (out[0], out[2]));
    (number, place, counts)
}

/// How many members a kept book has; it is complete.
fn members(name: &str) -> u8 {
    told(name).2.unwrap().0
}

/// Whether the first record covers the second, and the converse.
fn both(first: &[u8], second: &[u8]) -> (u8, u8) {
    (
        plain::covers(first, second, 4),
        plain::covers(second, first, 4),
    )
}

#[test]
fn examples_1_to_3_of_covering() {
    let pair = |a: u8, b: u8| [1, 0, a, b, 255, 255];
    assert_eq!(both(&pair(0, 1), &pair(0, 0)), (1, 0));
    let one = |a: u8| [1, 0, a, 255, 255, 255];
    assert_eq!(both(&one(0), &one(128)), (1, 0));
    let there_and_back = [2, 0, 0, 1, 255, 255, 0, 1, 0, 255, 255];
    assert_eq!(both(&there_and_back, &pair(128, 128)), (1, 0));
}

#[test]
fn examples_4_to_9() {
    for (name, many) in [
        ("04", 1),
        ("05", 1),
        ("06", 1),
        ("07", 1),
        ("08", 2),
        ("09", 2),
    ] {
        assert_eq!(members(&format!("example-{name}")), many, "{name}");
    }
}

#[test]
fn example_10_sixty_four_members() {
    assert_eq!(told("example-10-complete").2, Some((64, 64)));
    assert_eq!(told("example-10-refused-10"), (10, 63, None));
    assert_eq!(told("example-10-refused-9").0, 9);
}

#[test]
fn example_11_grows_too_long() {
    assert_eq!(told("example-11"), (8, 8, None));
}

#[test]
fn the_printed_book() {
    let (_, out) = run(&kept_book("printed"));
    let union = [
        2, 0, 2, 0, 8, 0, 25, 0, // members, explored, first member, total
        2, 1, 0, 255, 255, 255, 2, 1, 0, 255, 255, // r1(v0) r2(v1,v0)
        1, 0, 0, 255, 255, 255, // r0(v0)
    ];
    assert_eq!(out[..union.len()], union);
    assert_eq!(told("printed-allow-1"), (10, 1, None));
}

#[test]
fn things_simply_known() {
    assert_eq!(told("known").2, Some((1, 2)));
    assert_eq!(told("known-allow-1"), (10, 1, None));
    assert_eq!(both(&[0], &[1, 0, 0, 255, 255, 255]), (1, 0));
    assert_eq!(both(&[0], &[0]), (1, 1));
}

#[test]
fn answers_at_the_desk() {
    let asked = |term: u8| [1, 255, term, 255, 255, 255, 0, term, 255, 255, 255];
    let plain = |term: u8| [1, 0, term, 255, 255, 255];
    assert_eq!(both(&asked(0), &asked(128)), (1, 0));
    assert_eq!(both(&plain(0), &asked(128)), (0, 0));
    assert_eq!(plain::kept(&asked(0), &asked(7), 4), 1);
    assert_eq!(plain::kept(&[], &asked(7), 4), 0);
    assert_eq!(both(&[12], &asked(7)), (2, 3));
}
