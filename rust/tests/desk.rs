//! The search desk on some thousand pairs, against the second program.

use rauntiko::{covers, keep, kept, raw, rewrite, Malformed, Map, Term, Width};
use second::kinds::Kinds;
use second::pairs::{next, Pair};
use second::random::Random;
use second::{book, desk, generate};

/// What this crate says of two records, as numbers and bytes again.
fn said(first: &[u8], second: &[u8], width: Width) -> (u8, [u8; 66]) {
    match covers(first, second, width) {
        Ok(Some(map)) => (1, *map.as_bytes()),
        Ok(None) => (0, [255; 66]),
        Err(Malformed::First) => (2, [255; 66]),
        Err(Malformed::Second) => (3, [255; 66]),
    }
}

/// The width of so many places, if it is one.
fn width_of(places: usize) -> Option<Width> {
    let widths = [Width::Four, Width::Six];
    widths.into_iter().find(|width| width.places() == places)
}

/// What this crate's own words say of a pair is what the routines give.
fn same_in_words(pair: &Pair, width: Width) {
    let (first, second) = (&pair.first[..], &pair.second[..]);
    let raw::Covered { number, map } = raw::covers(first, second, pair.width);
    assert_eq!(said(first, second, width), (number, map), "{pair:?}");
    let part = match desk::keep(first, second, pair.width) {
        [] => None,
        part => Some(part),
    };
    assert_eq!(keep(first, second, width), part, "{pair:?}");
    let map = raw::kept(first, second, pair.width).map;
    let found = kept(first, second, width).map(|kept| (kept.record, *kept.map.as_bytes()));
    assert_eq!(found, part.map(|part| (part, map)), "{pair:?}");
}

#[test]
fn both_sides_say_the_same_of_every_pair() {
    let mut random = Random::new(13);
    let mut kinds = Kinds::default();
    for _ in 0..8000 {
        let pair = next(&mut random);
        kinds.count(&pair);
        let (first, second, places) = (&pair.first[..], &pair.second[..], pair.width);
        let raw::Covered { number, map } = raw::covers(first, second, places);
        let theirs = desk::covers(first, second, places);
        assert_eq!((number, map), (theirs.number, theirs.map), "{pair:?}");
        let raw::Kept { which, map } = raw::kept(first, second, places);
        let theirs = desk::kept(first, second, places);
        assert_eq!((which, map), (theirs.which, theirs.map), "{pair:?}");
        if let Some(width) = width_of(places) {
            same_in_words(&pair, width);
        }
    }
    assert!(kinds.counts.iter().all(|&count| count > 0));
}

#[test]
fn a_kept_record_is_the_one_that_was_given() {
    let record = [1, 0, 0, 255, 255, 255];
    let (first, second) = (record, record);
    assert!(std::ptr::eq(
        keep(&first, &second, Width::Four).unwrap(),
        &first[..]
    ));
    let special = [1, 0, 128, 255, 255, 255];
    assert!(std::ptr::eq(
        keep(&special, &second, Width::Four).unwrap(),
        &second[..]
    ));
    let told = kept(&special, &second, Width::Four).unwrap();
    assert!(std::ptr::eq(told.record, &second[..]) && std::ptr::eq(told.dropped, &special[..]));
    assert_eq!(keep(&[], &second, Width::Four), None);
    assert_eq!(kept(&second, &[], Width::Four), None);
}

/// The map of a record with these atoms to another, which it covers.
fn map(first: &[[u8; 5]], second: &[[u8; 5]]) -> Map {
    let record = |atoms: &[[u8; 5]]| [&[atoms.len() as u8][..], &atoms.concat()].concat();
    covers(&record(first), &record(second), Width::Four)
        .unwrap()
        .unwrap()
}

#[test]
fn a_map_says_where_each_variable_goes() {
    let found = map(&[[0, 63, 5, 128, 255]], &[[0, 254, 0, 128, 255]]);
    assert_eq!(found.term(63), Some(Term::Constant(126)));
    assert_eq!(found.term(5), Some(Term::Variable(0)));
    for variable in [0, 4, 62, 64, 65, 66, 128, 255] {
        assert_eq!(found.term(variable), None);
    }
    let all = [(5, Term::Variable(0)), (63, Term::Constant(126))];
    assert!(found.iter().eq(all));
    assert_eq!(found.to_string(), "v5 to v0, v63 to c126");
    assert_eq!(format!("{found:?}"), "Map(v5 to v0, v63 to c126)");
    assert_eq!(found.image(Term::Variable(5)), Term::Variable(0));
    assert_eq!(found.image(Term::Variable(6)), Term::Variable(6));
    assert_eq!(found.image(Term::Constant(0)), Term::Constant(0));
}

#[test]
fn the_first_map_is_given() {
    let q = |term: u8| [1, term, 255, 255, 255];
    let p = |a: u8, b: u8| [0, a, b, 255, 255];
    let facts = [p(129, 5), p(128, 6), q(128), q(129)];
    let found = map(&[q(0), p(0, 1)], &facts);
    assert_eq!(found.to_string(), "v0 to c0, v1 to v6");
    let turned = map(&[p(0, 1), q(0)], &facts);
    assert_eq!(turned.to_string(), "v0 to c1, v1 to v5");
    assert_eq!(map(&[], &facts).to_string(), "");
}

#[test]
fn a_map_sends_every_atom_of_the_kept_record_to_one_of_the_other() {
    let mut random = Random::new(15);
    let mut sent = 0;
    for _ in 0..4000 {
        let pair = next(&mut random);
        let Some(width) = width_of(pair.width) else {
            continue;
        };
        let Some(found) = kept(&pair.first, &pair.second, width) else {
            continue;
        };
        let atom = 1 + pair.width;
        let image = |place: &u8| match place {
            ..=65 => found.map.as_bytes()[usize::from(*place)],
            _ => *place,
        };
        for bytes in found.record[1..].chunks(atom) {
            let mut image: Vec<u8> = bytes.iter().map(image).collect();
            image[0] = bytes[0];
            assert!(found.dropped[1..].chunks(atom).any(|other| other == image));
            sent += 1;
        }
    }
    assert!(sent > 1000, "{sent}");
}

#[test]
fn a_malformed_record_is_told_of_with_its_side() {
    let sound = [1, 0, 0, 255, 255, 255];
    assert_eq!(covers(&[], &[], Width::Six), Err(Malformed::First));
    assert_eq!(covers(&sound, &sound, Width::Six), Err(Malformed::First));
    let told = covers(&sound, &[12], Width::Four).unwrap_err().to_string();
    assert!(told.starts_with("the second record is malformed; give "));
}

#[test]
fn members_of_a_union_are_records_and_none_covers_another() {
    let mut random = Random::new(14);
    let mut pairs = 0;
    for _ in 0..500 {
        let Ok(union) = rewrite(&book::write(&generate::sound(&mut random))) else {
            continue;
        };
        for (i, a) in union.members().enumerate() {
            for (j, b) in union.members().enumerate() {
                let map = covers(a.as_record(), b.as_record(), union.width()).unwrap();
                assert_eq!(map.is_some(), i == j);
                pairs += 1;
            }
        }
    }
    assert!(pairs > 1000, "{pairs}");
}
