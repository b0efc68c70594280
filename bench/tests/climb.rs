//! The changes by which the search climbs.

use bench::climb::{changed, start};
use second::book;
use second::generate::sound;
use second::random::Random;
use second::seen::Seen;

#[test]
fn a_changed_book_is_sound() {
    let mut random = Random::new(5);
    let mut now = sound(&mut random);
    let mut different = 0;
    for _ in 0..2000 {
        let next = changed(&now, &mut random);
        let read = book::read(&book::write(&next), &mut Seen::default());
        assert!(read.is_ok_and(|read| read == next));
        different += (next != now) as usize;
        now = next;
    }
    assert!(different > 1000, "{different}");
}

#[test]
fn the_same_seed_climbs_alike() {
    let walk = |seed: u64| {
        let mut random = Random::new(seed);
        let mut now = sound(&mut random);
        (0..100).for_each(|_| now = changed(&now, &mut random));
        book::write(&now)
    };
    assert_eq!(walk(1), walk(1));
    assert_ne!(walk(1), walk(2));
}

#[test]
fn climbs_begin_from_edge_books_and_from_any() {
    let mut random = Random::new(6);
    let starts: Vec<book::Book> = (0..200).map(|_| start(&mut random)).collect();
    assert!(starts.iter().all(|book| book.allowed == 1000));
    // All rules and a whole question over one relation: no ordinary book is so.
    let full = |book: &&book::Book| {
        let asked = &book.question.atoms;
        let one = asked.iter().all(|atom| atom.relation == asked[0].relation);
        book.rules.len() == 32 && asked.len() == 8 && one
    };
    assert!(starts.iter().filter(full).count() >= 3);
    let facts = |book: &&book::Book| book.rules.iter().filter(|r| r.is_fact()).count() > 2;
    assert!(starts.iter().filter(facts).count() >= 3);
}
