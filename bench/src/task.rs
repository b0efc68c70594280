//! What is timed.

use second::width::Width;

/// One member's record or the bytes of one book.
pub type Bytes = Vec<u8>;

/// What one timed run does.
pub enum Work {
    /// One book, from its bytes to the union's.
    Run(Bytes),
    /// Covering at the search desk, for each of these pairs of records of one width.
    Covers(Width, Vec<(Bytes, Bytes)>),
}

/// How long the proved program takes for it, which decides when it is measured.
#[derive(Clone, Copy, Debug, PartialEq, Eq)]
pub enum Pace {
    /// Well under a second: measured always.
    Ordinary,
    /// Seconds: left out where the whole must take seconds.
    Heavy,
    /// Many seconds to minutes: measured only if it is asked for.
    Slow,
}

/// A named thing to measure.
pub struct Task {
    /// Its class, as the table names it.
    pub kind: &'static str,
    pub name: String,
    /// How many rules the book has; 0 for pairs.
    pub rules: usize,
    pub pace: Pace,
    pub work: Work,
}

impl Task {
    /// The book's bytes, or none for pairs.
    pub fn book(&self) -> Option<&[u8]> {
        match &self.work {
            Work::Run(book) => Some(book),
            Work::Covers(..) => None,
        }
    }
}

/// Whether a task of this name and pace is wanted.
pub type Wants<'w> = &'w dyn Fn(&str, Pace) -> bool;

/// What is wanted of everything that there is to measure, in the table's order. The rest is not
/// made, so that a profile shows nothing of it.
pub fn wanted(wants: Wants) -> Vec<Task> {
    let books = crate::books::ordinary().into_iter();
    let books = books.chain(crate::books::new_form());
    let books = books.chain(crate::books::worst());
    let books = books.chain(crate::books::edges());
    let hard = crate::pairs::hard().into_iter();
    let hard = hard.chain(crate::pairs::edges());
    let made = |task: &Task| wants(&task.name, task.pace);
    let mut tasks: Vec<Task> = books.filter(made).collect();
    tasks.extend(crate::pairs::taken(wants));
    tasks.extend(hard.filter(made));
    tasks
}
