//! The benchmark: the proved program and plain Rust on the same books, side by side.
//!
//! Reading order: `task` says what is timed, `books` and `pairs` make it, `sides` are the two
//! programs, `check` compares their answers, `clock` and `timing` measure, `figures` and `table`
//! report, `machine` and `page` write docs/SPEED.md, `options` reads the command line. `climb` is the
//! search towards slow books, from edge books (`second::edges`) and others.
//!
//! The kinds `edges` and `edges, pairs` are edge books and pairs at their largest. The seven whose
//! names have `found` in them are random ones that the comparer met and was kept waiting by; what
//! `climb` prints can be put beside them, into `bench/books`, and named in `books/edges.rs`.

pub mod books;
pub mod check;
pub mod climb;
pub mod clock;
pub mod figures;
pub mod machine;
pub mod options;
pub mod page;
pub mod pairs;
pub mod sides;
pub mod table;
pub mod task;
pub mod timing;
