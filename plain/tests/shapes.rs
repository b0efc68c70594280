//! Shapes on which a program without look-ahead hangs: they end quickly, and smaller ones of
//! the same make are as the second program has them.

mod common;
#[path = "common/shapes.rs"]
mod shapes;

use common::{book_of, run, same, same_pair, within};
use second::random::Random;

/// A few seconds: a hanging shape takes minutes.
const SECONDS: u64 = 5;

#[test]
fn hard_books_end_quickly() {
    for (name, book) in shapes::hard() {
        let (answer, _) = within(SECONDS, &name, || run(&book));
        assert!([0, 8, 9, 10].contains(&answer.0), "{name}: {answer:?}");
    }
}

#[test]
fn smaller_ones_are_alike() {
    for (name, text) in shapes::smaller() {
        same(&name, &book_of(&text));
    }
}

#[test]
fn crowded_books_are_alike() {
    let mut random = Random::new(7);
    for i in 0..3_000 {
        same(&format!("crowded {i}"), &shapes::crowded(&mut random));
    }
}

#[test]
fn rings_on_dense_graphs_end_quickly() {
    for (name, first, second) in shapes::rings() {
        let said = within(SECONDS, &name, || plain::covers(&first, &second, 4));
        assert_eq!(said, shapes::is_even(&first) as u8, "{name}");
    }
}

#[test]
fn many_atoms_of_one_relation_end_quickly() {
    let mut random = Random::new(11);
    let pairs: Vec<_> = (0..20_000)
        .map(|_| shapes::dense(&mut random, 11))
        .collect();
    within(SECONDS, "20,000 dense pairs", || {
        for (first, second) in &pairs {
            assert!(plain::covers(first, second, 4) < 2);
        }
    });
}

#[test]
fn fewer_atoms_of_one_relation_are_alike() {
    let mut random = Random::new(5);
    (0..20_000).for_each(|_| same_pair(&shapes::pair(shapes::dense(&mut random, 5))));
}

/// A part that cannot be placed stands behind nine atoms with eleven candidates each.
#[test]
fn a_last_part_that_cannot_be_placed() {
    let loose = |i: u8| [0, 2 * i, 2 * i + 1, 255, 255];
    let mut first: Vec<u8> = (0..9).flat_map(loose).collect();
    first.extend([0, 60, 61, 255, 255, 0, 61, 60, 255, 255]);
    let second: Vec<u8> = (0..11).flat_map(loose).collect();
    let (first, second) = ([&[11], &first[..]].concat(), [&[11], &second[..]].concat());
    let said = within(SECONDS, "loose", || plain::covers(&first, &second, 4));
    assert_eq!(said, 0);
    assert_eq!(plain::covers(&second, &first, 4), 1);
    assert_eq!(plain::kept(&first, &second, 4), 2);
    assert_eq!(plain::kept(&second, &first, 4), 1);
}
