//! Edge books and edge pairs, and the budget that ends what they would take.

use second::book::{self, Book};
use second::budget::{take, within, CHOICE};
use second::desk::question_of;
use second::edges::{self, graphs};
use second::pairs::{answer, Pair};
use second::print::print;
use second::random::Random;
use second::seen::Seen;
use second::term::Question;
use second::width::{Width, WIDTHS};

/// The first edge books of a seed.
fn books(seed: u64, many: usize) -> Vec<Book> {
    let mut random = Random::new(seed);
    (0..many).map(|_| edges::book(&mut random)).collect()
}

/// The first edge pairs of a seed.
fn pairs(seed: u64, many: usize) -> Vec<Pair> {
    let mut random = Random::new(seed);
    (0..many).map(|_| edges::pair(&mut random)).collect()
}

/// How many of the things are such.
fn count<T>(things: &[T], such: impl Fn(&T) -> bool) -> usize {
    things.iter().filter(|thing| such(thing)).count()
}

#[test]
fn edge_books_are_sound() {
    for made in books(1, 30_000) {
        let read = book::read(&book::write(&made), &mut Seen::default());
        assert!(read.is_ok_and(|read| read == made));
    }
}

#[test]
fn the_same_seed_gives_the_same_edges() {
    assert_eq!(books(2, 100), books(2, 100));
    assert_ne!(books(2, 100), books(3, 100));
    assert_eq!(pairs(2, 100), pairs(2, 100));
    assert_ne!(pairs(2, 100), pairs(3, 100));
}

#[test]
fn edge_books_are_of_every_size_up_to_what_is_legal() {
    let books = books(4, 2000);
    let some = |such: fn(&Book) -> bool| {
        let many = count(&books, such);
        assert!(many > 20, "{many}");
    };
    some(|b| b.width == Width::Four);
    some(|b| b.width == Width::Six && b.relations.contains(&6));
    some(|b| b.rules.len() == 1);
    some(|b| b.rules.len() == 32);
    some(|b| b.question.atoms.len() == 8);
    some(|b| b.question.atoms.len() < 5);
    some(|b| b.question.is_answered());
    some(|b| b.constants > 8);
    some(|b| {
        b.rules
            .iter()
            .any(|r| r.head.len() == 4 && r.body.len() == 4)
    });
    some(|b| b.rules.iter().any(|r| r.is_fact()));
    some(|b| b.question.atoms.len() == 8 && b.rules.len() == 32 && b.allowed == 1000);
}

/// The two questions of an edge pair, both of which are sound.
fn questions(pair: &Pair) -> (Question, Question) {
    let question = |record| question_of(record, pair.width).expect("a sound record");
    (question(&pair.first), question(&pair.second))
}

#[test]
fn edge_pairs_are_sound_and_of_every_size_up_to_what_is_legal() {
    let pairs = pairs(5, 2000);
    for width in WIDTHS {
        let such: Vec<_> = pairs.iter().filter(|p| p.width == width.places()).collect();
        let full = count(&such, |pair| {
            let (first, second) = questions(pair);
            first.atoms.len() == 11 && second.atoms.len() == 11
        });
        assert!(full > 100 && full < such.len() / 2, "{full}");
        let answered = count(&such, |pair| questions(pair).0.is_answered());
        assert!(answered > 50, "{answered}");
    }
}

#[test]
fn edge_pairs_are_covered_and_not() {
    let pairs = pairs(6, 2000);
    let said = pairs
        .iter()
        .filter_map(|pair| within(200_000, || answer(pair)));
    let said: Vec<String> = said.collect();
    for which in ["first", "second", "none"] {
        let many = count(&said, |text| text.contains(which));
        assert!(many > 100, "{which}: {many}");
    }
    assert!(said.len() < pairs.len(), "some take longer");
}

#[test]
fn the_graphs_are_what_they_are_called() {
    assert_eq!(graphs::ring(3), [(0, 1), (1, 2), (2, 0)]);
    assert_eq!(graphs::star(2), [(1, 0), (2, 0)]);
    assert_eq!(graphs::points(&graphs::path(4)), 5);
    assert_eq!(graphs::points(&[]), 0);
    let (two, three) = (graphs::path(2), graphs::unrelated(3));
    let before = graphs::before(two.clone(), three.clone());
    assert_eq!(before, [(0, 1), (1, 2), (3, 4), (5, 6), (7, 8)]);
    let between = graphs::between(two, three);
    assert_eq!(between, [(0, 1), (3, 4), (1, 2), (5, 6), (7, 8)]);
}

#[test]
fn a_budget_is_used_up_or_not() {
    assert_eq!(within(3, || take(1) && take(1)), Some(true));
    assert_eq!(within(3, || take(1) && take(1) && take(1)), None);
    assert_eq!(within(3, || take(100)), None);
    // One inside another has its own, and what was left before is left after it.
    let nested = within(5, || {
        assert_eq!(within(2, || take(2)), None);
        take(4)
    });
    assert_eq!(nested, Some(true));
    assert!(take(1 << 40), "without a budget there is no end");
}

#[test]
fn with_enough_steps_the_answer_is_the_same() {
    let (mut given_up, mut answered) = (0, 0);
    for book in books(7, 200).iter().map(book::write) {
        match within(100_000, || print(&book)) {
            None => given_up += 1,
            Some(text) => {
                assert_eq!(text, print(&book));
                answered += 1;
            }
        }
    }
    assert!(given_up > 50 && answered > 20, "{given_up} {answered}");
}

#[test]
fn a_search_that_gave_up_ends_soon() {
    // All choices of 32 rules: without a budget minutes, with it a little over the budget.
    let books = books(8, 400);
    let largest = |b: &&Book| b.rules.len() == 32 && b.question.atoms.len() == 8;
    for book in books.iter().filter(largest) {
        let bytes = book::write(book);
        assert_eq!(within(CHOICE, || print(&bytes)), None);
    }
}

#[test]
fn a_small_change_leaves_a_book_sound() {
    let mut random = Random::new(9);
    for made in books(9, 300) {
        let next = edges::changed(&made, &mut random);
        let read = book::read(&book::write(&next), &mut Seen::default());
        assert!(read.is_ok_and(|read| read == next));
    }
}
