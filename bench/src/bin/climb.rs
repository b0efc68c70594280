//! Climbs towards books that are slow for one side, and shows the slowest as a text, which can be
//! put into `bench/books` as it is.

use bench::climb::{climb, serve, Slowest, Timer, CHILD};
use bench::sides::{Side, PLAIN, PROVED};
use bench::table::micros;
use second::{book, finish, source};
use std::process::ExitCode;
use std::time::Duration;

/// How the command is used.
const USAGE: &str = "climb [--side proved|plain] [--seconds N] [--limit SECONDS] [--seed S]
  climbs for N seconds (60) from edge books and others towards books that are slow for one
  side (proved), and prints the slowest as a text for bench/books; a run is stopped, and the
  climb ended, at the limit (10 seconds by the clock on the wall)";

/// What is asked for.
struct Asked {
    side: Side,
    seconds: u64,
    limit: u64,
    seed: u64,
}

fn main() -> ExitCode {
    let words: Vec<String> = std::env::args().skip(1).collect();
    if let [first, name] = &words[..] {
        if first == CHILD {
            side(name).iter().for_each(serve);
            return ExitCode::SUCCESS;
        }
    }
    finish(read(&words).and_then(|asked| run(&asked)))
}

/// The side of this name.
fn side(name: &str) -> Option<Side> {
    [PROVED, PLAIN].into_iter().find(|side| side.name == name)
}

/// Reads the command line, words in pairs.
fn read(words: &[String]) -> Result<Asked, String> {
    let mut asked = Asked {
        side: PROVED,
        seconds: 60,
        limit: 10,
        seed: 1,
    };
    for pair in words.chunks(2) {
        let [word, value] = pair else {
            return Err(USAGE.into());
        };
        let number = || value.parse().map_err(|_| USAGE.to_string());
        match word.as_str() {
            "--side" => asked.side = side(value).ok_or(USAGE)?,
            "--seconds" => asked.seconds = number()?,
            "--limit" => asked.limit = number()?,
            "--seed" => asked.seed = number()?,
            _ => return Err(USAGE.into()),
        }
    }
    Ok(asked)
}

/// Climbs, and says what was found, with the time of the other side beside it.
fn run(asked: &Asked) -> Result<String, String> {
    let limit = Duration::from_secs(asked.limit);
    let mut timer = Timer::start(asked.side.name, limit)?;
    let found = climb(&mut timer, asked.seed, Duration::from_secs(asked.seconds))?;
    let other = match asked.side.name {
        "proved" => PLAIN,
        _ => PROVED,
    };
    let beside = Timer::start(other.name, limit)?.time(&book::write(&found.book))?;
    let Slowest { book, time, tried } = found;
    Ok(format!(
        "# {tried} books tried; {} {}, {} {}\n{}",
        asked.side.name,
        told(time, asked.limit),
        other.name,
        told(beside, asked.limit),
        source::show(&book)
    ))
}

/// A time in words.
fn told(time: Option<u64>, limit: u64) -> String {
    match time {
        Some(time) => format!("{} µs", micros(time as f64)),
        None => format!("over {limit} s"),
    }
}
