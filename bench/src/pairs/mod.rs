//! Covering by itself: pairs of records for the search desk.

mod edges;
mod hard;
mod taken;

pub use edges::tasks as edges;
pub use hard::tasks as hard;
pub use taken::tasks as taken;
