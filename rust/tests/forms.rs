//! Copies from one form to the other, and both forms run, against the second program.

use rauntiko::{raw, rewrite, to_new, to_old, Refusal, Width};
use second::copying;
use second::random::Random;
use second::run::Answer;
use second::{generate, limits};

/// Generated books, sound and damaged, and those made on purpose.
fn books() -> Vec<Vec<u8>> {
    let mut random = Random::new(16);
    let mut books: Vec<Vec<u8>> = limits::books().into_iter().map(|(_, book)| book).collect();
    books.extend((0..4000).map(|_| generate::next(&mut random)));
    books
}

/// A routine that copies, and the second program's.
type Both = (
    fn(&[u8], &mut [u8]) -> raw::Answer,
    fn(&[u8], &mut [u8]) -> Answer,
);

/// There and back.
const COPIES: [Both; 2] = [
    (raw::to_new, copying::to_new),
    (raw::to_old, copying::to_old),
];

#[test]
fn both_sides_copy_alike_in_any_room() {
    for book in books() {
        for (mine, theirs) in COPIES {
            for room in [0, 1, raw::BOOK_ROOM - 1, raw::BOOK_ROOM, raw::BOOK_ROOM + 9] {
                let [mut out, mut other] = [vec![77; room], vec![77; room]];
                let answer = mine(&book, &mut out);
                let expected = theirs(&book, &mut other);
                let numbers = (answer.number as usize, answer.place);
                assert_eq!(numbers, (expected.number, expected.place), "{book:?}");
                assert!(out == other, "{book:?}");
            }
        }
    }
}

#[test]
fn there_and_back_gives_the_first_bytes() {
    let (mut copied, mut none) = (0, 0);
    for book in books() {
        let (new, old) = (to_new(&book), to_old(&book));
        match (Width::of_book(&book), new, old) {
            (Width::Four, Ok(new), Ok(old)) => {
                assert_eq!((old, to_old(&new)), (book.clone(), Ok(book)));
                copied += 1;
            }
            (Width::Six, Ok(new), Ok(old)) => {
                assert_eq!((new, to_new(&old)), (book.clone(), Ok(book)));
                copied += 1;
            }
            (Width::Six, Ok(_), Err(Refusal::NoOldForm(place))) => {
                assert!(matches!(book[place], 5..=6 | 32..=47));
                none += 1;
            }
            (_, new, old) => assert_eq!(new.unwrap_err(), old.unwrap_err()),
        }
    }
    assert!(copied > 1000 && none > 200, "{copied} {none}");
}

#[test]
fn both_forms_run_alike() {
    for book in books() {
        let (Ok(new), Ok(old)) = (to_new(&book), to_old(&book)) else {
            continue;
        };
        match (rewrite(&new), rewrite(&old)) {
            (Ok(new), Ok(old)) => {
                assert_eq!(new.to_string(), old.to_string());
                assert_eq!((new.width(), old.width()), (Width::Six, Width::Four));
            }
            (new, old) => assert_eq!(new.unwrap_err(), old.unwrap_err()),
        }
    }
}
