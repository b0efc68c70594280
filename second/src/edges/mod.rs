//! Edge books and edge pairs: shapes on which a search that tries everything takes long, at any
//! size up to what is legal. Unrelated atoms around a part that cannot be placed, rings, paths,
//! cliques and dense graphs, failures that come last; rules by which all choices are valid, hardly
//! any, or none but only the last atom tells; words and widening by which all that happens again
//! and again.
//!
//! Reading order: `graphs` are lists of arrows, `parts` draws them, `atoms` makes atoms of them;
//! `pairs` makes pairs of records; `heads`, `asked`, `rounds` and `books` make books; `disguise`
//! and `change` rename, reorder and change them a little.

mod asked;
mod atoms;
mod books;
mod change;
mod disguise;
pub mod graphs;
mod heads;
mod pairs;
mod parts;
mod rounds;

pub use atoms::{Drawn, Filling};
pub use books::book;
pub use change::changed;
pub use pairs::pair;
