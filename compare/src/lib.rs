//! Compares the second program with the others, byte for byte.
//!
//! `side` names the others that are called in this process; `output` is what one says of a
//! book, `comparison` compares it, `desk` what is said of pairs of records; `generated` makes
//! books and pairs, `blocks` spreads them over threads; `limit` and `overdue` say what takes too
//! long.
//! `against` starts another program, `programs` compares it. `shrink` and `show` make a
//! difference small and readable; `asked` reads the command lines.

pub mod against;
pub mod asked;
pub mod blocks;
pub mod comparison;
pub mod desk;
pub mod generated;
pub mod limit;
pub mod output;
pub mod overdue;
pub mod programs;
pub mod show;
pub mod shrink;
pub mod side;

/// A book with the name by which it is reported.
pub type Named = (String, Vec<u8>);
