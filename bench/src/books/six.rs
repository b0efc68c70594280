//! Books in the new form: ordinary ones copied into it, and loan lines of six places.

use super::text::{chain, ordinary, Words};
use super::{ordinary as all_ordinary, SIZES};
use crate::task::{Task, Work};
use second::copying::{to_new, BOOK_ROOM};

/// How many rules those have that are copied.
const COPIED: usize = 16;

/// The books, by kind and size.
pub fn books() -> Vec<Task> {
    let copied = all_ordinary().into_iter().filter(|t| t.rules == COPIED);
    let copied = copied.map(copied_to_new);
    copied
        .chain(SIZES.map(loan_lines).map(Words::task))
        .collect()
}

/// The same book in the new form.
fn copied_to_new(task: Task) -> Task {
    let mut copy = vec![0; BOOK_ROOM];
    let answer = to_new(task.book().expect("a book"), &mut copy);
    assert_eq!(answer.number, 0, "{}", task.name);
    copy.truncate(answer.place);
    Task {
        kind: "new form",
        name: format!("new-{}", task.name),
        work: Work::Run(copy),
        ..task
    }
}

/// A loan line may stand in five lists, each narrower than the one before it, and whatever is
/// lent is under some line; the question asks for two lines with one borrower and one room.
fn loan_lines(rules: usize) -> Words {
    let places = "a,b,s,r,f,t";
    let mut all = chain("line", 4, places);
    all.extend((4..rules).map(|i| format!("lent{i}(a,s) -> line0({places})")));
    let question = "line0(a,b,s,r,f,t) line0(c,b,p,r,g,u) sheet(s)";
    ordinary("loan lines", "two", all, question)
}
