//! The comparer: `compare [--seconds N] [--count N] [--seed S] [--threads N] [--limit SECONDS]
//! [--books DIR] [--program PATH] [--to-new PATH] [--to-old PATH] [--against CMD ARG..]`. Runs the
//! second program and the others in this process on the books in DIR, on the books made on purpose and
//! on generated ones, copies each into both forms, runs the other form too, and compares every
//! byte. CMD is a batch program, given the same but for most of the generated
//! ones; PATH a program that takes one book, to print its union or to copy it, given those in
//! DIR and some made on purpose. Fails at the first difference, if a behaviour of the paper was not
//! met, and if a call of the proved routines takes more processor time than the limit.

use compare::against::Against;
use compare::asked::Asked;
use compare::blocks::{each_block, rate, BLOCK};
use compare::comparison::{answered, Comparison};
use compare::generated::{edge_books, ordinary_books, shares, BOOKS};
use compare::output::takes_small_output;
use compare::overdue::look_after;
use compare::programs::{compare_batch, compare_copier, compare_program};
use compare::side::{told, SIDES};
use compare::Named;
use second::limits;
use second::seen::Behaviour;
use second::width::Width;
use std::path::{Path, PathBuf};
use std::process::ExitCode;
use std::time::Instant;

/// How many blocks of generated books a batch program is given.
const BATCHES: u64 = 8;

/// The books that stand in a directory, by name.
fn kept_books(directory: &Path) -> Result<Vec<Named>, String> {
    let entries = std::fs::read_dir(directory).map_err(|e| format!("{directory:?}: {e}"))?;
    let mut paths: Vec<PathBuf> = entries.flatten().map(|entry| entry.path()).collect();
    paths.retain(|path| path.extension().is_some_and(|e| e == "book"));
    paths.sort();
    let read = |path: PathBuf| {
        let bytes = std::fs::read(&path).map_err(|e| format!("{path:?}: {e}"))?;
        Ok((path.file_name().unwrap().to_string_lossy().into(), bytes))
    };
    paths.into_iter().map(read).collect()
}

/// Whether a book made on purpose is worth a start of its own.
fn single(name: &str) -> bool {
    !name.starts_with("swept") && !name.starts_with("far")
}

/// Compares the programs that are asked for, and tells on how many books.
fn compare_programs(asked: &Asked, kept: &[Named], made: &[Named]) -> Result<(), String> {
    if let Some(against) = &asked.against {
        let count = compare_batches(against, asked.seed, kept, made)?;
        println!("the batch program: {count} books");
    }
    let singles = made.iter().filter(|(name, _)| single(name));
    let some: Vec<Named> = kept.iter().chain(singles).cloned().collect();
    if let Some(program) = &asked.program {
        compare_program(program, &some)?;
        println!("the printing program: {} books", some.len());
    }
    for (program, wanted) in [(&asked.to_new, Width::Six), (&asked.to_old, Width::Four)] {
        if let Some(program) = program {
            compare_copier(program, wanted, &some)?;
            println!("a copying program: {} books", some.len());
        }
    }
    Ok(())
}

/// Compares a batch program; on how many books.
fn compare_batches(
    against: &Against,
    seed: u64,
    kept: &[Named],
    made: &[Named],
) -> Result<usize, String> {
    compare_batch(against, kept)?;
    compare_batch(against, made)?;
    let mut count = kept.len() + made.len();
    for block in 0..BATCHES {
        let books = batch(seed.wrapping_add(block));
        compare_batch(against, &books)?;
        count += books.len();
    }
    Ok(count)
}

/// The generated books of a block that a batch program is given: ordinary ones, and the edge books
/// that the second program answers.
fn batch(seed: u64) -> Vec<Named> {
    let (ordinary, edges) = shares(BLOCK, BOOKS);
    let mut books = ordinary_books(seed, ordinary);
    let edges = edge_books(seed, edges).into_iter();
    books.extend(edges.filter(|(_, book)| answered(book)));
    books
}

/// Compares the generated books of a block. Without a limit nothing would end a run that takes
/// minutes, and edge books that the second program does not answer are left out.
fn compare_block(part: &mut Comparison, seed: u64, many: usize) -> Result<(), String> {
    let (ordinary, edges) = shares(many, BOOKS);
    part.compare(&ordinary_books(seed, ordinary))?;
    let mut books = edge_books(seed, edges);
    if !part.longest.is_limited() {
        books.retain(|(_, book)| answered(book));
        part.leave_out(edges - books.len());
    }
    part.compare_edges(&books)
}

/// Runs the whole comparison; how quickly it went.
fn compare_all(asked: Asked) -> Result<(Comparison<'static>, String), String> {
    asked.limit.into_iter().for_each(look_after);
    let nothing = || Comparison::limited(SIDES, asked.limit);
    let mut comparison = nothing();
    let (kept, made) = (kept_books(&asked.books)?, limits::books());
    comparison.compare(&kept)?;
    comparison.compare(&made)?;
    for (name, bytes) in &kept {
        if let Some(who) = takes_small_output(bytes, SIDES, &mut comparison.seen) {
            return Err(format!("{who}: a small output is not refused on {name}"));
        }
    }
    println!("kept and made on purpose: {} books", comparison.compared);
    compare_programs(&asked, &kept, &made)?;
    let start = Instant::now();
    let parts = each_block(asked.blocks(), nothing, compare_block)?;
    let made = parts.iter().map(|part| part.compared).sum();
    let rate = rate("books", made, parts.len(), start);
    parts.iter().for_each(|part| comparison.add(part));
    Ok((comparison, rate))
}

/// Tells what was compared and met; whether every behaviour was.
fn report(comparison: &Comparison, rate: &str) -> bool {
    print!("{}", comparison.seen.table());
    println!("{rate}\n{}\n{}", comparison.times(), told(SIDES));
    let (took, name) = &comparison.slowest;
    println!("slowest: {name}, {:.2} s", took.as_secs_f64());
    if let Some(name) = comparison.longest.on() {
        let (who, seconds) = (SIDES[0].name, comparison.longest.seconds());
        println!("slowest for {who}: {name}, {seconds:.3} s");
    }
    println!(
        "edge books {}, of them passed over by the second program {}, left out {}",
        comparison.edges, comparison.passed_over, comparison.left_out
    );
    let complete = comparison.seen.count(Behaviour::Complete);
    let compared = comparison.compared;
    let both = comparison.in_both_forms;
    println!(
        "books {compared}, of them in both forms {both}, complete runs {complete}, differences 0"
    );
    let missing = comparison.seen.missing();
    for words in &missing {
        println!("NOT MET: {words}");
    }
    missing.is_empty()
}

/// Compares, reports, and fails if anything differs or was not met.
fn main() -> ExitCode {
    let asked = Asked::read(
        std::env::args().skip(1),
        &["--books", "--program", "--to-new", "--to-old"],
    );
    match asked.and_then(compare_all) {
        Ok((comparison, rate)) if report(&comparison, &rate) => ExitCode::SUCCESS,
        Ok(_) => ExitCode::FAILURE,
        Err(what) => {
            println!("{what}");
            ExitCode::FAILURE
        }
    }
}
