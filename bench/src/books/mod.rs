//! The books: four ordinary kinds in three sizes, books in the new form, the worst ones known, and
//! edge books at their largest.

mod choices;
mod climbed;
mod edges;
mod late;
mod members;
mod ontology;
mod rounds;
mod six;
mod text;
mod words;

pub use edges::books as edges;
pub use six::books as new_form;
pub use text::Words;

use crate::task::Task;

/// How many rules the ordinary books have.
pub const SIZES: [usize; 3] = [8, 16, 32];

/// The books of the four ordinary kinds, by kind and size.
pub fn ordinary() -> Vec<Task> {
    let kinds = [words::books, ontology::books, rounds::books, members::books];
    let books = kinds
        .iter()
        .flat_map(|kind| SIZES.into_iter().flat_map(kind));
    books.map(Words::task).collect()
}

/// The worst ones known.
pub fn worst() -> Vec<Task> {
    let books = choices::books().into_iter().chain(late::books());
    books.map(Words::task).chain(climbed::books()).collect()
}
