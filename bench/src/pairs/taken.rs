//! Pairs of records of eight atoms, taken from the runs of books that are measured too.

use crate::books;
use crate::sides::ROOM;
use crate::task::{Bytes, Pace, Task, Wants, Work};
use second::book::Book;
use second::layout::width_of;
use second::run::run;
use second::seen::Seen;
use second::term::Question;
use second::unify::for_each_choice;
use second::union;
use second::width::Width;

/// The books whose members, all of eight atoms, are taken.
const BOOKS: [&str; 6] = [
    "near-64-members-8-wide",
    "near-64-members-16-wide",
    "near-64-members-32-wide",
    "new-near-64-members-16-wide",
    "many-rounds-8-opened",
    "explorations-1000",
];

/// How many members are taken from one book, evenly from all.
const MEMBERS: usize = 16;

/// How many pairs with a rewriting.
const STEPS: usize = 256;

/// What is wanted of each book: its members against each other, and against rewritings.
pub fn tasks(wants: Wants) -> Vec<Task> {
    let made = books::ordinary().into_iter().chain(books::new_form());
    let made = made.chain(books::worst());
    let taken = made.filter(|task| BOOKS.contains(&task.name.as_str()));
    taken.flat_map(|task| of_book(&task, wants)).collect()
}

/// What is wanted of one book.
fn of_book(task: &Task, wants: Wants) -> Vec<Task> {
    let names = ["members-of", "steps-of"].map(|kind| format!("{kind}-{}", task.name));
    let [members_wanted, steps_wanted] = [&names[0], &names[1]].map(|n| wants(n, Pace::Ordinary));
    if !members_wanted && !steps_wanted {
        return Vec::new();
    }
    let (members, book) = (members(task), decoded(task));
    let [name, steps_name] = names;
    let covering = |name, pairs| covering(name, book.width, pairs);
    let mut tasks = Vec::new();
    if members_wanted {
        tasks.push(covering(name, members_pairs(&members, book.width)));
    }
    if steps_wanted {
        tasks.push(covering(steps_name, step_pairs(&members, &book)));
    }
    tasks
}

/// A task of this name, with these records of one width.
fn covering(name: String, width: Width, pairs: Vec<(Bytes, Bytes)>) -> Task {
    Task {
        kind: "covering, members",
        name,
        rules: 0,
        pace: Pace::Ordinary,
        work: Work::Covers(width, pairs),
    }
}

/// Some of a book's members, each against each: nearly all answers are no, and most at a glance.
fn members_pairs(members: &[Question], width: Width) -> Vec<(Bytes, Bytes)> {
    let members = evenly(members.iter(), MEMBERS);
    records(pairs(&members, &members), width)
}

/// Members against rewritings of members, both ways round, as an exploration asks; only where the
/// relations allow a yes, so that there is something to search for.
fn step_pairs(members: &[Question], book: &Book) -> Vec<(Bytes, Bytes)> {
    let steps: Vec<Question> = members.iter().flat_map(|m| steps(m, book)).collect();
    let steps = evenly(steps.iter(), STEPS);
    let members: Vec<&Question> = members.iter().collect();
    let mut both = pairs(&members, &steps);
    both.extend(pairs(&steps, &members));
    both.retain(|(first, second)| may_cover(first, second));
    records(evenly(both.into_iter(), STEPS), book.width)
}

/// Whether every relation of the first question stands in the second too.
fn may_cover(first: &Question, second: &Question) -> bool {
    let stands = |relation: usize| second.atoms.iter().any(|atom| atom.relation == relation);
    first.atoms.iter().all(|atom| stands(atom.relation))
}

/// The members of a book's union that have eight atoms. The second program makes the union, so
/// that what is measured does not depend on the sides that are.
fn members(task: &Task) -> Vec<Question> {
    let mut out = [0; ROOM];
    let answer = run(task.book().expect("a book"), &mut out);
    assert_eq!(answer.number, 0, "{}: no union", task.name);
    let width = width_of(task.book().expect("a book"));
    of_eight(union::read(&out[..answer.place], width).0)
}

/// The book that a task runs.
fn decoded(task: &Task) -> Book {
    let bytes = task.book().expect("a book");
    second::book::read(bytes, &mut Seen::default()).unwrap_or_else(|_| panic!("{}", task.name))
}

/// The one-step rewritings of a member that have eight atoms.
fn steps(member: &Question, book: &Book) -> Vec<Question> {
    let mut steps = Vec::new();
    for rule in &book.rules {
        for_each_choice(member, rule, &mut |_, choice| {
            let classes = choice.classes();
            if choice.faults(&classes).is_empty() {
                steps.push(choice.rewriting(&classes));
            }
            true
        });
    }
    of_eight(steps)
}

/// Those that have eight atoms.
fn of_eight(mut questions: Vec<Question>) -> Vec<Question> {
    questions.retain(|question| question.atoms.len() == 8);
    questions
}

/// At most so many of the things, evenly from all.
fn evenly<T>(things: impl ExactSizeIterator<Item = T>, most: usize) -> Vec<T> {
    let every = things.len().div_ceil(most).max(1);
    things.step_by(every).collect()
}

/// Each of the first with each of the second.
fn pairs<'q>(first: &[&'q Question], second: &[&'q Question]) -> Vec<(&'q Question, &'q Question)> {
    let with = |&a: &&'q Question| second.iter().map(move |&b| (a, b));
    first.iter().flat_map(with).collect()
}

/// The records of pairs of questions.
fn records(pairs: Vec<(&Question, &Question)>, width: Width) -> Vec<(Bytes, Bytes)> {
    let record = |question| union::record(question, width);
    pairs.iter().map(|(a, b)| (record(a), record(b))).collect()
}
