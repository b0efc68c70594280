//! Times the proved program and plain Rust on the same books and prints a table.

use bench::check;
use bench::machine;
use bench::options::Options;
use bench::page;
use bench::sides::Side;
use bench::table::{self, Classes};
use bench::task::{self, Task};
use bench::timing::{measure, sample};
use std::process::ExitCode;

fn main() -> ExitCode {
    match Options::read(std::env::args().skip(1)).and_then(|options| run(&options)) {
        Ok(()) => ExitCode::SUCCESS,
        Err(what) => {
            eprintln!("{what}");
            ExitCode::FAILURE
        }
    }
}

/// Does what is asked for.
fn run(options: &Options) -> Result<(), String> {
    let tasks = task::wanted(&|name, pace| options.wants(name, pace));
    match &options.side {
        Some(side) => {
            let alone = |task| alone(task, side, options);
            tasks.iter().for_each(alone);
            Ok(())
        }
        None => both(&tasks, options),
    }
}

/// Times one side alone for some seconds, so that a profile of the process is one of that side.
fn alone(task: &Task, side: &Side, options: &Options) {
    let answer = check::answer(task, side);
    let rough = sample(task, side, 1);
    let times = (4.0 * options.effort().limit / rough).ceil() as usize;
    let one = table::micros(sample(task, side, times));
    let said = match check::counts(task, &answer) {
        Some((members, explored)) => format!(", {members} members, {explored} explored"),
        None => String::new(),
    };
    println!(
        "{}: {} {one} µs a run, {times} runs{said}",
        task.name, side.name
    );
}

/// Compares and times both sides, line by line as they are done.
fn both(tasks: &[Task], options: &Options) -> Result<(), String> {
    let mut classes = Classes::default();
    let mut part = format!("{}\n{}", machine::lines(), table::HEAD);
    print!("{part}");
    for task in tasks {
        let answer = check::agreed(task)?;
        let measured = measure(task, options.effort());
        let line = table::line(task, check::counts(task, &answer), &measured);
        print!("{line}");
        part += &line;
        classes.count(task, &measured);
    }
    let classes = format!("\n{}", classes.table());
    print!("{classes}");
    match options.write {
        true => page::write(&(part + &classes)),
        false => Ok(()),
    }
}
