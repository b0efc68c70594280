//! Generated books and pairs, in blocks that threads take in turn. Every block has a seed of
//! its own, so that what is generated does not depend on how many threads there are.

use std::sync::atomic::{AtomicBool, AtomicUsize, Ordering};
use std::thread;
use std::time::Instant;

/// How many are made of one seed.
pub const BLOCK: usize = 500;

/// How many are made in all.
#[derive(Clone, Copy)]
pub enum Until {
    Count(usize),
    Time(Instant),
}

impl Until {
    /// How many are in the block of this number; 0 if there is no such block.
    fn many(self, block: usize) -> usize {
        match self {
            Until::Count(count) => count.saturating_sub(block * BLOCK).min(BLOCK),
            Until::Time(end) if Instant::now() < end => BLOCK,
            Until::Time(_) => 0,
        }
    }
}

/// A line with how many were compared since the start, and how quickly.
pub fn rate(what: &str, many: usize, threads: usize, start: Instant) -> String {
    let took = start.elapsed().as_secs_f64();
    let a_minute = many as f64 * 60.0 / took;
    format!("generated: {many} {what} in {took:.0} s by {threads} threads, {a_minute:.0} a minute")
}

/// How many threads there are, if the command line does not say.
pub fn processors() -> usize {
    thread::available_parallelism().map_or(1, |many| many.get())
}

/// Calls `step` for each block with what its thread has gathered, the block's seed, from
/// `seed` on, and how many are in it. What every thread has gathered, or the first error, after
/// which no new block is begun.
pub fn each_block<T: Send>(
    (seed, until, threads): (u64, Until, usize),
    start: impl Fn() -> T + Sync,
    step: impl Fn(&mut T, u64, usize) -> Result<(), String> + Sync,
) -> Result<Vec<T>, String> {
    let (next, failed) = (AtomicUsize::new(0), AtomicBool::new(false));
    let work = || {
        let mut gathered = start();
        while !failed.load(Ordering::Relaxed) {
            let block = next.fetch_add(1, Ordering::Relaxed);
            let many = until.many(block);
            if many == 0 {
                break;
            }
            if let Err(what) = step(&mut gathered, seed.wrapping_add(block as u64), many) {
                failed.store(true, Ordering::Relaxed);
                return Err(what);
            }
        }
        Ok(gathered)
    };
    thread::scope(|scope| {
        let started: Vec<_> = (0..threads.max(1)).map(|_| scope.spawn(work)).collect();
        let ended = started.into_iter().map(|thread| thread.join().unwrap());
        ended.collect()
    })
}
