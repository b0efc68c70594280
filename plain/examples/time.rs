//! How long runs take: `time [NAME]`. For each kept book, each sound book at the limits and
//! each shape that is hard, the median of many runs, or of those whose name has NAME in it.

#[path = "../tests/common/mod.rs"]
mod common;
#[path = "../tests/common/shapes.rs"]
mod shapes;

use plain::{run, OUTPUT_ROOM};
use std::hint::black_box;
use std::time::{Duration, Instant};

/// How long a book is run again and again.
const PATIENCE: Duration = Duration::from_millis(200);

/// The median time of a run, and how many there were.
fn median(book: &[u8]) -> (Duration, usize) {
    let mut out = [0; OUTPUT_ROOM];
    let mut times = Vec::new();
    let start = Instant::now();
    while times.is_empty() || start.elapsed() < PATIENCE {
        let begin = Instant::now();
        black_box(run(black_box(book), &mut out));
        times.push(begin.elapsed());
    }
    times.sort();
    (times[times.len() / 2], times.len())
}

fn main() {
    let wanted = std::env::args().nth(1).unwrap_or_default();
    let mut books = common::kept_books();
    books.extend(second::limits::books().into_iter().filter(|(name, book)| {
        let refused = run(book, &mut [0; OUTPUT_ROOM]).number;
        !(2..8).contains(&refused) && !name.starts_with("swept")
    }));
    books.extend(shapes::hard());
    for (name, book) in books.iter().filter(|(name, _)| name.contains(&wanted)) {
        let (time, runs) = median(book);
        let answer = run(book, &mut [0; OUTPUT_ROOM]);
        println!(
            "{:>12.2} us  {runs:>7} runs  {:>2} at {:>4}  {name}",
            time.as_secs_f64() * 1e6,
            answer.number,
            answer.place
        );
    }
}
