//! The map that covering gives, and what the desk writes of it.

#[path = "common/records.rs"]
mod records;

use records::{answered, record, U};
use second::cover::first_map;
use second::desk::{self, question_of, Bytes, Covered, Kept, NO_MAP};
use second::pairs::{answer, next, Pair};
use second::random::Random;
use second::term::{Atom, Question, Term};
use std::collections::BTreeMap;

/// The bytes of a map that sends just these variables somewhere.
fn map(images: &[(usize, u8)]) -> Bytes {
    let mut bytes = NO_MAP;
    images.iter().for_each(|&(v, image)| bytes[v] = image);
    bytes
}

/// What covering gives of records of width 4.
fn covers(first: &[u8], second: &[u8]) -> Covered {
    desk::covers(first, second, 4)
}

/// Which of two records of width 4 is kept.
fn kept(first: &[u8], second: &[u8]) -> Kept {
    desk::kept(first, second, 4)
}

/// A pair of width 4.
fn pair(first: Vec<u8>, second: Vec<u8>) -> Pair {
    Pair {
        width: 4,
        first,
        second,
    }
}

/// An atom of relation 0 with two terms.
fn p(a: u8, b: u8) -> [u8; 5] {
    [0, a, b, U, U]
}

/// An atom of relation 1 with one term.
fn q(a: u8) -> [u8; 5] {
    [1, a, U, U, U]
}

/// That the first record covers the second by this map.
fn covers_by(first: &[u8], second: &[u8], images: &[(usize, u8)]) {
    let expected = Covered {
        number: 1,
        map: map(images),
    };
    assert_eq!(covers(first, second), expected, "{first:?} {second:?}");
}

#[test]
fn candidates_are_taken_in_order() {
    let asked = record(&[q(0)]);
    covers_by(&asked, &record(&[q(128), q(129)]), &[(0, 128)]);
    covers_by(&asked, &record(&[q(129), q(128)]), &[(0, 129)]);
    // The first candidate that goes on, not the first there is.
    let both = record(&[q(0), p(0, 1)]);
    let facts = record(&[q(130), q(129), q(128), p(128, 7), p(129, 63)]);
    covers_by(&both, &facts, &[(0, 129), (1, 63)]);
}

#[test]
fn atoms_are_taken_in_order() {
    // Whichever stands first decides: the two have their candidates in other orders.
    let facts = record(&[p(129, 5), p(128, 6), q(128), q(129)]);
    covers_by(&record(&[q(0), p(0, 1)]), &facts, &[(0, 128), (1, 6)]);
    covers_by(&record(&[p(0, 1), q(0)]), &facts, &[(0, 129), (1, 5)]);
}

#[test]
fn an_earlier_atom_keeps_its_candidate_whatever_the_later_ones_take() {
    let asked = record(&[p(0, 1), p(1, 2)]);
    let facts = record(&[p(0, 1), p(1, 1), p(1, 0)]);
    covers_by(&asked, &facts, &[(0, 0), (1, 1), (2, 1)]);
    let ring = record(&[p(0, 1), p(1, 0)]);
    covers_by(&ring, &record(&[p(128, 128)]), &[(0, 128), (1, 128)]);
}

#[test]
fn a_variable_that_does_not_stand_in_the_record_goes_nowhere() {
    covers_by(&record(&[q(63)]), &record(&[q(0), q(1)]), &[(63, 0)]);
    covers_by(&record(&[q(128)]), &record(&[q(1), q(128)]), &[]);
    covers_by(&record(&[]), &record(&[q(1)]), &[]);
    covers_by(&record(&[q(0)]), &record(&[q(254)]), &[(0, 254)]);
}

#[test]
fn an_answer_record_is_placed_first() {
    let asked = answered([0, 1, U, U], &[q(0), q(2)]);
    let facts = answered([129, 7, U, U], &[q(128), q(129)]);
    // v0 is the other's answer; v1 stands in the answer record alone.
    covers_by(&asked, &facts, &[(0, 129), (1, 7), (2, 128)]);
    let always = answered([5, U, U, U], &[]);
    covers_by(&always, &answered([130, U, U, U], &[q(0)]), &[(5, 130)]);
}

#[test]
fn without_a_covering_there_is_no_map() {
    let (some, named, bad) = (record(&[q(0)]), record(&[q(128)]), vec![12]);
    for (first, second, number) in [
        (&named, &some, 0),
        (&bad, &some, 2),
        (&bad, &bad, 2),
        (&some, &bad, 3),
    ] {
        let expected = Covered {
            number,
            map: NO_MAP,
        };
        assert_eq!(covers(first, second), expected);
    }
    let neither = Kept {
        which: 0,
        map: NO_MAP,
    };
    let other = record(&[p(0, 0)]);
    for (first, second) in [(&some, &bad), (&bad, &some), (&some, &other)] {
        assert_eq!(kept(first, second), neither);
    }
    assert!(NO_MAP.iter().all(|&byte| byte == 255));
}

#[test]
fn the_one_that_is_kept_has_the_map() {
    let (general, special) = (record(&[p(3, 4)]), record(&[p(0, 128), p(9, 9)]));
    let images = map(&[(3, 0), (4, 128)]);
    let first = Kept {
        which: 1,
        map: images,
    };
    let second = Kept {
        which: 2,
        map: images,
    };
    assert_eq!(kept(&general, &special), first);
    assert_eq!(kept(&special, &general), second);
    // Of two that cover each other the first, by its own map.
    let same = record(&[p(7, 8)]);
    assert_eq!(kept(&same, &general).map, map(&[(7, 3), (8, 4)]));
}

/// The first map once more: every sequence of candidates from the first to the last, each
/// looked at when it is whole.
fn first_by_sequences(a: &Question, b: &Question) -> Option<BTreeMap<usize, Term>> {
    if a.answer.len() != b.answer.len() {
        return None;
    }
    let many = b.atoms.len().pow(a.atoms.len() as u32);
    (0..many).find_map(|number| {
        let mut pairs: Vec<(Term, Term)> = Vec::new();
        pairs.extend(a.answer.iter().copied().zip(b.answer.iter().copied()));
        let mut weight = many;
        for atom in &a.atoms {
            weight /= b.atoms.len();
            let target = &b.atoms[number / weight % b.atoms.len()];
            pairs.extend(met(atom, target)?);
        }
        allowed(&pairs)
    })
}

/// The terms that meet if an atom is placed on another, if it can be.
fn met(atom: &Atom, target: &Atom) -> Option<Vec<(Term, Term)>> {
    let alike = atom.relation == target.relation && atom.terms.len() == target.terms.len();
    let terms = atom.terms.iter().copied().zip(target.terms.iter().copied());
    alike.then(|| terms.collect())
}

/// The map that sends the first of each pair to the second, if there is one.
fn allowed(pairs: &[(Term, Term)]) -> Option<BTreeMap<usize, Term>> {
    let mut images = BTreeMap::new();
    let fits = pairs.iter().all(|&(from, to)| match from {
        Term::Variable(v) => *images.entry(v).or_insert(to) == to,
        Term::Constant(_) => from == to,
    });
    fits.then_some(images)
}

#[test]
fn the_map_is_that_of_the_first_sequence_of_candidates() {
    let mut random = Random::new(31);
    let (mut maps, mut none) = (0, 0);
    for _ in 0..60_000 {
        let pair = next(&mut random);
        let question_of = |record| question_of(record, pair.width);
        let questions = question_of(&pair.first).zip(question_of(&pair.second));
        let Some((a, b)) = questions.filter(|(a, b)| a.atoms.len() <= 4 && b.atoms.len() <= 8)
        else {
            continue;
        };
        let found = first_map(&a, &b).map(|map| BTreeMap::from_iter(map.images().iter().copied()));
        assert_eq!(found, first_by_sequences(&a, &b), "{a:?} {b:?}");
        maps += found.is_some() as usize;
        none += found.is_none() as usize;
    }
    assert!(maps > 8000 && none > 8000, "{maps} {none}");
}

#[test]
fn the_desk_writes_how_the_kept_one_covers_the_other() {
    let ring = record(&[p(0, 1), p(1, 0)]);
    let fixed = record(&[p(128, 128)]);
    let how = "v0 to c0\nv1 to c0\nr0(v0,v1) meets r0(c0,c0)\nr0(v1,v0) meets r0(c0,c0)\n";
    let told = answer(&pair(ring.clone(), fixed.clone()));
    assert_eq!(told, format!("covers 1 keep first\n{how}"));
    let told = answer(&pair(fixed.clone(), ring));
    assert_eq!(told, format!("covers 0 keep second\n{how}"));
    assert_eq!(answer(&pair(vec![], fixed.clone())), "covers 2 keep none\n");
    assert_eq!(answer(&pair(fixed.clone(), vec![])), "covers 3 keep none\n");
    assert_eq!(
        answer(&pair(fixed, record(&[q(0)]))),
        "covers 0 keep none\n"
    );
}

#[test]
fn the_desk_writes_the_answer_record_first_and_the_first_atom_that_is_met() {
    let asked = answered([2, U, U, U], &[q(1), q(2), q(128)]);
    let facts = answered([129, U, U, U], &[q(128), q(129), q(128), q(129)]);
    let lines = [
        "covers 1 keep first",
        "v1 to c0",
        "v2 to c1",
        "a(v2) meets a(c1)",
        "r1(v1) meets r1(c0)",
        "r1(v2) meets r1(c1)",
        "r1(c0) meets r1(c0)",
        "",
    ];
    assert_eq!(answer(&pair(asked, facts)), lines.join("\n"));
    assert_eq!(
        answer(&pair(vec![0], record(&[q(0)]))),
        "covers 1 keep first\n"
    );
}
