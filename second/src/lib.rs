//! A second program for Rauntiko, written from the build paper by its words and
//! not from the proved code: brute force where that is more plainly right.
//!
//! Reading order: `term`, `cover`, `form`, `unify`, `explore` say what a run is;
//! `width`, `book`, `union`, `run`, `print` put it into bytes, `copying` a book into its other
//! form; `desk` is the search desk, `meeting` what it says of a map. `source` is the text form of books. `generate`, `damage`, `limits`,
//! `raw`, `six`, `pairs`, `edges`, `kinds` and `seen` serve the comparer, a package of its own; `budget`
//! ends what would take too long; `chase` and `ledger` are the second check of what a complete union promises.

pub mod book;
pub mod budget;
pub mod chase;
pub mod copying;
pub mod cover;
pub mod damage;
pub mod desk;
pub mod edges;
pub mod explore;
pub mod form;
pub mod generate;
pub mod kinds;
pub mod layout;
pub mod ledger;
pub mod limits;
pub mod meeting;
pub mod pairs;
pub mod print;
pub mod random;
pub mod raw;
pub mod refuse;
pub mod run;
pub mod seen;
pub mod shapes;
pub mod six;
pub mod source;
pub mod term;
pub mod unify;
pub mod union;
pub mod watch;
pub mod way;
pub mod width;

use std::process::ExitCode;

/// How a command ends: what it has to show, or on standard error what is wrong.
pub fn finish(result: Result<String, String>) -> ExitCode {
    match result {
        Ok(text) => {
            print!("{text}");
            ExitCode::SUCCESS
        }
        Err(what) => {
            eprintln!("{what}");
            ExitCode::FAILURE
        }
    }
}
