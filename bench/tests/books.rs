//! The books are what their names say, and both sides answer them as the second program does.

use bench::books::{edges, new_form, ordinary, worst, SIZES};
use bench::check::{agreed, answer, counts};
use bench::pairs;
use bench::sides::{PROVED, ROOM};
use bench::task::{wanted, Pace, Task, Work};
use second::book;
use second::seen::Seen;
use second::term::Rule;
use second::width::Width;
use std::collections::BTreeSet;

/// The book of a task, read by the second program.
fn read(task: &Task) -> book::Book {
    let bytes = task.book().expect("a book");
    match book::read(bytes, &mut Seen::default()) {
        Ok(book) => book,
        Err(fault) => panic!("{}: refused {} at {}", task.name, fault.number, fault.place),
    }
}

#[test]
fn every_book_is_sound_and_has_its_rules() {
    let (ordinary, new, worst, edges) = (ordinary(), new_form(), worst(), edges());
    for task in ordinary.iter().chain(&new).chain(&worst).chain(&edges) {
        assert_eq!(read(task).rules.len(), task.rules, "{}", task.name);
    }
}

#[test]
fn every_kind_has_two_books_of_each_size() {
    let books = ordinary();
    let kinds: BTreeSet<&str> = books.iter().map(|task| task.kind).collect();
    assert_eq!(kinds.len(), 4);
    for (kind, size) in kinds.iter().flat_map(|kind| SIZES.map(|size| (kind, size))) {
        let such = books.iter().filter(|t| t.kind == *kind && t.rules == size);
        assert!(such.count() >= 2, "{kind}, {size} rules");
    }
}

#[test]
fn names_are_different() {
    let tasks = wanted(&|name, _| !name.contains("-of-"));
    let names: BTreeSet<&str> = tasks.iter().map(|task| task.name.as_str()).collect();
    assert_eq!(names.len(), tasks.len());
}

#[test]
fn some_ordinary_books_have_answer_places() {
    let books = ordinary();
    let answered = books
        .iter()
        .filter(|task| read(task).question.is_answered());
    assert!(answered.count() >= 8);
}

/// Members and explored questions of an ordinary book, which must be complete.
fn complete(task: &Task) -> (usize, usize) {
    let counted = counts(task, &answer(task, &PROVED));
    counted.unwrap_or_else(|| panic!("{} is not complete", task.name))
}

#[test]
fn ordinary_books_are_complete_and_of_their_kind() {
    for task in ordinary() {
        let (members, explored) = complete(&task);
        match task.kind {
            "many rounds" => assert!(explored > 100, "{}: {explored}", task.name),
            "near 64 members" => assert!(members >= 60, "{}: {members}", task.name),
            _ => assert!(members >= 7, "{}: {members}", task.name),
        }
    }
}

#[test]
fn books_in_the_new_form_are_complete_and_of_their_kind() {
    let books = new_form();
    let kinds = ["new form", "loan lines"].map(|kind| {
        let such = books.iter().filter(|task| task.kind == kind);
        such.count()
    });
    assert!(kinds[0] >= 8 && kinds[1] == SIZES.len(), "{kinds:?}");
    for task in books {
        let book = read(&task);
        assert_eq!(book.width, Width::Six, "{}", task.name);
        let widest = book.relations.iter().max();
        assert_eq!(
            widest == Some(&6),
            task.kind == "loan lines",
            "{}",
            task.name
        );
        assert!(complete(&task).0 >= 3, "{}", task.name);
    }
}

#[test]
fn edge_books_are_as_large_as_is_legal() {
    let books = edges();
    assert!(books.len() >= 12);
    for task in books.iter().filter(|task| !task.name.contains("found")) {
        let book = read(task);
        assert_eq!(book.question.atoms.len(), 8, "{}", task.name);
        let full = |rule: &Rule| rule.head.len() == 4;
        assert!(book.rules.iter().any(full), "{}", task.name);
        let few = task.name.contains("unrelated");
        assert_eq!(book.rules.len() == 32, !few, "{}", task.name);
    }
    let wide = books.iter().filter(|t| read(t).width == Width::Six);
    assert!(wide.count() >= 2);
}

#[test]
fn edge_pairs_have_eleven_atoms_each() {
    let tasks = pairs::edges();
    for task in &tasks {
        let Work::Covers(_, pairs) = &task.work else {
            panic!("{} is no pair", task.name);
        };
        let sizes = pairs.iter().map(|(a, b)| a[0].min(b[0]));
        assert!(sizes.into_iter().all(|least| least >= 10), "{}", task.name);
        let covers = answer(task, &PROVED);
        let same = task.name.contains("same");
        assert_eq!(covers == [1], same, "{}", task.name);
    }
    assert!(tasks.len() >= 8);
}

#[test]
fn the_longest_run_takes_up_a_thousand() {
    let tasks = worst();
    let long = tasks.iter().find(|task| task.name == "explorations-1000");
    assert_eq!(complete(long.expect("the book")).1, 1000);
}

/// What the second program answers, in the form in which the sides' answers are compared.
fn second_answer(task: &Task) -> Vec<u8> {
    match &task.work {
        Work::Covers(width, pairs) => pairs
            .iter()
            .map(|(a, b)| second::desk::covers(a, b, width.places()).number)
            .collect(),
        Work::Run(book) => {
            let mut out = [0xa5; ROOM];
            let answered = second::run::run(book, &mut out);
            let mut bytes = vec![answered.number as u8];
            bytes.extend(answered.place.to_le_bytes());
            bytes.extend(out);
            bytes
        }
    }
}

#[test]
fn both_sides_agree_on_whatever_is_quick() {
    for task in wanted(&|_, pace| pace == Pace::Ordinary) {
        agreed(&task).unwrap();
    }
}

/// Brute force takes long where a search has many ways to fail.
fn is_quick_for_brute_force(name: &str, pace: Pace) -> bool {
    let slow = [
        "covering-",
        "choices-",
        "explorations-",
        "many-rounds",
        "pair-unrelated",
        "pair-leaves",
        "edges-",
    ];
    let is_slow = slow.iter().any(|part| name.contains(part));
    pace == Pace::Ordinary && (!is_slow || name == "many-rounds-8-widened")
}

#[test]
fn the_second_program_agrees_where_it_is_quick() {
    let quick = wanted(&is_quick_for_brute_force);
    assert!(quick.len() > 40);
    for task in quick {
        let same = answer(&task, &PROVED) == second_answer(&task);
        assert!(same, "{}", task.name);
    }
}
