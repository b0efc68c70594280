//! The second check of what a complete union promises: `ledgers [--seconds N] [--count N]
//! [--seed S] [WAY]`. Generated books whose runs are complete are put to small ledgers of
//! named things, the empty one among them; a bounded forward chase and the members must
//! agree on every row. Fails if any disagrees. With the word for a wrong way, such as
//! `--old-way`, the unions are that one's, and some should disagree.

use second::book::Book;
use second::explore::{explore_by, Outcome};
use second::ledger::{check, ledgers, Checked};
use second::print::{print_atoms, print_question, print_terms};
use second::random::Random;
use second::seen::Seen;
use second::term::{Atom, Question};
use second::way::{Way, WRONG_WAYS};
use second::{generate, source};
use std::process::ExitCode;
use std::time::{Duration, Instant};

/// What the command line asks for.
struct Asked {
    seconds: u64,
    count: Option<usize>,
    seed: u64,
    way: Way,
}

/// How often each came out, over the rows of all ledgers.
#[derive(Default)]
struct Counts {
    books: usize,
    yes: usize,
    no: usize,
    undecided: usize,
    disagreed: usize,
    /// Those among `yes` and `no` of the empty ledger.
    empty_yes: usize,
    empty_no: usize,
}

/// The counts of books without answer places and of those with some.
#[derive(Default)]
struct Both {
    boolean: Counts,
    answered: Counts,
}

/// Reads the command line.
fn asked() -> Result<Asked, String> {
    let mut asked = Asked {
        seconds: 20,
        count: None,
        seed: 1,
        way: Way::Right,
    };
    let mut words = std::env::args().skip(1);
    while let Some(word) = words.next() {
        if WRONG_WAYS.iter().any(|(wrong, _)| *wrong == word) {
            asked.way = Way::named(Some(&word));
            continue;
        }
        let value = words.next().and_then(|value| value.parse().ok());
        let number: u64 = value.ok_or(format!("{word} wants a number"))?;
        match word.as_str() {
            "--seconds" => asked.seconds = number,
            "--count" => asked.count = Some(number as usize),
            "--seed" => asked.seed = number,
            _ => return Err(format!("{word} is not known")),
        }
    }
    Ok(asked)
}

impl Counts {
    /// Counts one check; the first that disagrees is shown.
    fn count(&mut self, found: Checked, book: &Book, members: &[Question], ledger: &[Atom]) {
        self.yes += found.yes;
        self.no += found.no;
        self.undecided += found.undecided;
        if ledger.is_empty() {
            self.empty_yes += found.yes;
            self.empty_no += found.no;
        }
        if let (0, Some(row)) = (self.disagreed, found.disagreed.first()) {
            show(book, members, ledger);
            println!("row: {}", print_terms(row));
        }
        self.disagreed += found.disagreed.len();
    }

    /// Whether nothing disagreed, and both a yes and a no were met, of the empty ledger too.
    fn is_fine(&self) -> bool {
        let of_empty = self.empty_yes > 0 && self.empty_no > 0;
        self.disagreed == 0 && self.yes > self.empty_yes && self.no > self.empty_no && of_empty
    }

    /// A line for these counts.
    fn tell(&self, what: &str) {
        let (books, yes, no, undecided) = (self.books, self.yes, self.no, self.undecided);
        let agreed = yes + no;
        println!(
            "{what}: books {books}, agreed {agreed} ({yes} yes, {no} no), undecided {undecided}; \
             of the empty ledger {} yes, {} no",
            self.empty_yes, self.empty_no
        );
    }
}

impl Both {
    /// The counts that a book belongs to.
    fn of(&mut self, book: &Book) -> &mut Counts {
        match book.question.is_answered() {
            false => &mut self.boolean,
            true => &mut self.answered,
        }
    }
}

/// Shows a ledger on which the chase and the members disagree.
fn show(book: &Book, members: &[Question], ledger: &[Atom]) {
    println!("DISAGREED\n{}members:", source::show(book));
    for member in members {
        println!("  {}", print_question(member));
    }
    println!("ledger: {}", print_atoms(ledger));
}

/// Checks generated books until the count or the time is up.
fn check_all(asked: &Asked) -> Both {
    let mut both = Both::default();
    let mut random = Random::new(asked.seed);
    let start = Instant::now();
    let more = |both: &Both| match asked.count {
        Some(count) => both.boolean.books + both.answered.books < count,
        None => start.elapsed() < Duration::from_secs(asked.seconds),
    };
    while more(&both) {
        let book = generate::sound(&mut random);
        let run = explore_by(&book, asked.way, &mut Seen::default());
        if let Outcome::Complete { members, .. } = run {
            let counts = both.of(&book);
            counts.books += 1;
            for ledger in ledgers(&book, &members, &mut random) {
                let found = check(&book, &members, &ledger);
                counts.count(found, &book, &members, &ledger);
            }
        }
    }
    both
}

/// Checks, reports, and fails if anything disagreed.
fn main() -> ExitCode {
    let asked = match asked() {
        Ok(asked) => asked,
        Err(what) => {
            println!("{what}");
            return ExitCode::FAILURE;
        }
    };
    let Both { boolean, answered } = check_all(&asked);
    boolean.tell("yes or no");
    answered.tell("row by row");
    println!("disagreed {}", boolean.disagreed + answered.disagreed);
    match boolean.is_fine() && answered.is_fine() {
        true => ExitCode::SUCCESS,
        false => ExitCode::FAILURE,
    }
}
