//! The search desk: two member records.

#[path = "common/records.rs"]
mod records;

use records::{answered, record, U};
use second::desk;

/// The number that covering gives.
fn covers(first: &[u8], second: &[u8]) -> u8 {
    desk::covers(first, second, 4).number
}

/// The record that is kept, of width 4.
fn keep<'r>(first: &'r [u8], second: &'r [u8]) -> &'r [u8] {
    desk::keep(first, second, 4)
}

#[test]
fn the_bench_examples() {
    let p = |a, b| [0, a, b, U, U];
    let general = record(&[p(0, 1)]);
    let loops = record(&[p(0, 0)]);
    assert_eq!(covers(&general, &loops), 1);
    assert_eq!(covers(&loops, &general), 0);
    let ring = record(&[p(0, 1), p(1, 0)]);
    let fixed = record(&[p(128, 128)]);
    assert_eq!(covers(&ring, &fixed), 1);
    assert_eq!(covers(&fixed, &ring), 0);
}

#[test]
fn an_atom_goes_only_to_one_of_its_relation_and_places() {
    let one = record(&[[5, 0, U, U, U]]);
    let two = record(&[[5, 0, 0, U, U]]);
    let other = record(&[[6, 0, U, U, U]]);
    assert_eq!(covers(&one, &two), 0);
    assert_eq!(covers(&two, &one), 0);
    assert_eq!(covers(&one, &other), 0);
}

#[test]
fn malformed_records() {
    let good = record(&[[0, 0, U, U, U]]);
    let bad: Vec<Vec<u8>> = vec![
        vec![],
        vec![0, 0],
        vec![0, 0, 0, U, U, U],
        vec![1],
        vec![1, 0, 0, U, U],
        vec![1, 0, 0, U, U, U, 0],
        vec![2, 0, 0, U, U, U],
        record(&[[0, 0, U, U, U]; 12]),
        record(&[[64, 0, U, U, U]]),
        record(&[[255, 0, U, U, U]]),
        record(&[[0, U, U, U, U]]),
        record(&[[0, 64, U, U, U]]),
        record(&[[0, 127, U, U, U]]),
        record(&[[0, 0, U, 1, U]]),
        record(&[[0, 0, U, U, 1]]),
        record(&[[0, U, 0, U, U]]),
        record(&[[0, 0, U, U, U], [0, 99, U, U, U]]),
    ];
    for wrong in &bad {
        assert_eq!(covers(wrong, &good), 2, "{wrong:?}");
        assert_eq!(covers(&good, wrong), 3, "{wrong:?}");
        assert_eq!(covers(wrong, wrong), 2, "{wrong:?}");
        assert!(keep(wrong, &good).is_empty());
        assert!(keep(&good, wrong).is_empty());
    }
}

#[test]
fn the_bounds_of_a_record() {
    let eleven = record(&[[63, 63, 254, 128, 0]; 11]);
    assert_eq!(covers(&eleven, &eleven), 1);
    let full = answered([63, 254, 128, 0], &[[63, 63, 254, 128, 0]; 11]);
    assert_eq!(full.len(), 1 + 5 * 12);
    assert_eq!(covers(&full, &full), 1);
}

#[test]
fn covering_sends_the_answer_record_to_the_others() {
    let p = |term| [[0, term, U, U, U]];
    let which = |answer, term| answered([answer, U, U, U], &p(term));
    assert_eq!(covers(&which(0, 0), &which(7, 7)), 1);
    assert_eq!(covers(&which(0, 0), &which(128, 128)), 1);
    assert_eq!(covers(&which(128, 128), &which(0, 0)), 0);
    // p(v0) goes to p(c0), but then v0 is not the other's answer.
    assert_eq!(covers(&which(0, 0), &which(129, 128)), 0);
    assert_eq!(covers(&which(129, 0), &which(129, 128)), 1);
    // An answer variable of a desk's record need not stand in its atoms.
    assert_eq!(covers(&which(1, 0), &which(129, 128)), 1);
    assert_eq!(covers(&which(1, 0), &which(63, 128)), 1);
}

#[test]
fn an_answer_record_on_one_alone_or_of_other_places() {
    let p = [[0, 0, U, U, U]];
    let fixed = [[0, 128, U, U, U]];
    let (none, one) = (record(&p), answered([0, U, U, U], &p));
    let two = answered([0, 0, U, U], &p);
    let named = answered([128, U, U, U], &fixed);
    // As conjunctions p(v0) would cover a(c0) p(c0).
    for (first, second) in [(&none, &named), (&none, &one), (&one, &two), (&two, &one)] {
        assert_eq!(covers(first, second), 0);
        assert_eq!(covers(second, first), 0);
        assert!(keep(first, second).is_empty());
    }
    assert!(std::ptr::eq(keep(&named, &one), &one[..]));
    let twice = answered([1, 1, U, U], &[[0, 1, U, U, U], [0, 1, U, U, U]]);
    assert!(std::ptr::eq(keep(&twice, &two), &twice[..]));
}

#[test]
fn malformed_answer_records() {
    let p = [[0, 0, U, U, U]];
    let good = answered([0, U, U, U], &p);
    let bad = [
        // As long as without the answer record, and as with two.
        record(&[[255, 0, U, U, U]]),
        record(&[[255, 0, U, U, U], [0, 0, U, U, U]]),
        answered([0, U, U, U], &[[255, 0, U, U, U]]),
        answered([0, U, U, U], &[p[0], [255, 0, U, U, U]]),
        [&[1, 255, 0, U, U, U, 255, 0, U, U, U][..], &p[0]].concat(),
        // Twelve atoms beside it; none, and some bytes more or fewer, or another record.
        answered([0, U, U, U], &[p[0]; 12]),
        vec![0, 255],
        vec![0, 255, 0, U, U],
        vec![0, 255, 0, U, U, U, 0],
        vec![0, 255, 0, U, U, U, 0, 0, U, U, U],
        vec![0, 255, 0, U, U, U, 255, 0, U, U, U],
        // No place used, one after an unused one, and none that is allowed.
        answered([U, U, U, U], &p),
        answered([U, 0, U, U], &p),
        answered([0, U, 0, U], &p),
        answered([0, U, U, 0], &p),
        answered([64, U, U, U], &p),
        answered([0, 127, U, U], &p),
        [&[1, 254, 0, U, U, U][..], &p[0]].concat(),
        vec![0, 255, U, U, U, U],
        vec![0, 255, 0, U, 0, U],
        vec![0, 255, 64, U, U, U],
        vec![0, 254, 0, U, U, U],
    ];
    for wrong in &bad {
        assert_eq!(covers(wrong, &good), 2, "{wrong:?}");
        assert_eq!(covers(&good, wrong), 3, "{wrong:?}");
        assert!(keep(wrong, &good).is_empty() && keep(&good, wrong).is_empty());
    }
}

#[test]
fn a_record_without_atoms_covers_all() {
    let always: Vec<u8> = record(&[]);
    assert_eq!(always, [0]);
    let eleven = record(&[[63, 63, 254, 128, 0]; 11]);
    for other in [
        record(&[[0, 0, U, U, U]]),
        record(&[[0, 128, U, U, U]]),
        eleven,
    ] {
        assert_eq!((covers(&always, &other), covers(&other, &always)), (1, 0));
        assert!(std::ptr::eq(keep(&always, &other), &always[..]));
        assert!(std::ptr::eq(keep(&other, &always), &always[..]));
    }
    let same = record(&[]);
    assert_eq!(covers(&always, &same), 1);
    assert!(std::ptr::eq(keep(&always, &same), &always[..]));
}

#[test]
fn a_record_without_atoms_covers_what_its_answer_record_allows() {
    let p = |term| [[0, term, U, U, U]];
    let always = |answer| answered([answer, U, U, U], &[]);
    let which = |answer, term| answered([answer, U, U, U], &p(term));
    assert_eq!(always(128), [0, 255, 128, U, U, U]);
    assert_eq!(covers(&always(128), &which(128, 128)), 1);
    assert_eq!(covers(&always(128), &which(128, 0)), 1);
    assert_eq!(covers(&which(128, 0), &always(128)), 0);
    for other in [which(129, 129), which(0, 0), always(129), always(0)] {
        assert_eq!(covers(&always(128), &other), 0, "{other:?}");
    }
    // A variable to answer, which no run gives, allows every row of its places.
    for other in [which(129, 129), which(7, 7), always(129), always(9)] {
        assert_eq!(covers(&always(0), &other), 1, "{other:?}");
    }
    let twice = answered([0, 0, U, U], &[]);
    assert_eq!(covers(&twice, &answered([128, 128, U, U], &p(1))), 1);
    assert_eq!(covers(&twice, &answered([128, 129, U, U], &p(1))), 0);
    let four = answered([128, 0, 254, 63], &[]);
    assert_eq!(covers(&four, &four), 1);
    let (named, known) = (which(128, 128), always(128));
    assert!(std::ptr::eq(keep(&named, &known), &known[..]));
}

#[test]
fn without_atoms_answers_on_one_alone_or_of_other_places_are_no_covering() {
    let none = record(&[]);
    let (one, two) = (answered([0, U, U, U], &[]), answered([0, 0, U, U], &[]));
    let atoms = answered([0, U, U, U], &[[0, 0, U, U, U]]);
    for (a, b) in [(&none, &one), (&none, &atoms), (&one, &two), (&two, &atoms)] {
        assert_eq!((covers(a, b), covers(b, a)), (0, 0), "{a:?} {b:?}");
        assert!(keep(a, b).is_empty() && keep(b, a).is_empty());
    }
}

#[test]
fn keeping_one_of_two() {
    let general = record(&[[0, 0, 1, U, U]]);
    let special = record(&[[0, 0, 0, U, U]]);
    let same = record(&[[0, 7, 9, U, U], [0, 7, 9, U, U]]);
    let other = record(&[[1, 0, 0, U, U]]);
    assert!(std::ptr::eq(keep(&general, &special), &general[..]));
    assert!(std::ptr::eq(keep(&special, &general), &general[..]));
    assert!(std::ptr::eq(keep(&general, &same), &general[..]));
    assert!(std::ptr::eq(keep(&same, &general), &same[..]));
    let empty = keep(&special, &other);
    assert!(empty.is_empty() && std::ptr::eq(empty.as_ptr(), special.as_ptr()));
}
