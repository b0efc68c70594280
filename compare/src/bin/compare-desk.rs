//! The comparer for the search desk: `compare-desk [--seconds N] [--count N] [--seed S]
//! [--threads N] [--limit SECONDS] [--against CMD ARG..]`. Compares covering and keeping, their
//! numbers and maps, on generated pairs in this process. CMD is a batch program, given some of
//! them: it reads for each pair a byte, the width, and two records, each a little-endian length of
//! four bytes and then its bytes; it writes a line `covers K keep first` (or `second` or `none`),
//! then how the kept one covers the other, then a line with a single full stop. Fails at the first
//! difference, if a kind of pair was not met, and if a call of the proved routines takes more
//! processor time than the limit.

use compare::against::Against;
use compare::asked::Asked;
use compare::blocks::{each_block, rate, BLOCK};
use compare::desk::{answered, compare_batch, shown, Pairs};
use compare::generated::{edge_pairs, ordinary_pairs, shares, PAIRS};
use compare::overdue::look_after;
use compare::side::{told, SIDES};
use second::kinds::Kinds;
use std::process::ExitCode;
use std::time::Instant;

/// How many blocks of pairs a batch program is given.
const BATCHES: u64 = 40;

/// The pairs compared, and the kinds of the ordinary ones.
struct Compared {
    pairs: Pairs<'static>,
    kinds: Kinds,
}

/// Compares the pairs of a block, and counts the kinds of the ordinary ones. To tell the kind of
/// an edge pair takes as long as to try everything.
fn compare_block(compared: &mut Compared, seed: u64, many: usize) -> Result<(), String> {
    let (ordinary, edges) = shares(many, PAIRS);
    for pair in ordinary_pairs(seed, ordinary) {
        compared.kinds.count(&pair);
        compared.pairs.compare(&pair)?;
    }
    let mut edges = edge_pairs(seed, edges).into_iter();
    edges.try_for_each(|pair| compared.pairs.compare_edge(&pair))
}

/// Compares a batch program on ordinary pairs and on the edge pairs that the second program
/// answers; on how many.
fn compare_batches(against: &Against, seed: u64) -> Result<usize, String> {
    let (ordinary, edges) = shares(BLOCK, PAIRS);
    let blocks = (0..BATCHES).map(|block| seed.wrapping_add(block));
    let pairs = blocks.flat_map(|seed| {
        let edges = edge_pairs(seed, edges).into_iter().filter(answered);
        ordinary_pairs(seed, ordinary).into_iter().chain(edges)
    });
    compare_batch(against, &pairs.collect::<Vec<_>>())
}

/// Runs the whole comparison; what was compared, and how quickly it went.
fn compare_all(asked: Asked) -> Result<(Compared, String), String> {
    if let Some(against) = &asked.against {
        let count = compare_batches(against, asked.seed)?;
        println!("the batch program: {count} pairs");
    }
    asked.limit.into_iter().for_each(look_after);
    let start = Instant::now();
    let nothing = || Compared {
        pairs: Pairs::limited(SIDES, asked.limit),
        kinds: Kinds::default(),
    };
    let parts = each_block(asked.blocks(), nothing, compare_block)?;
    let mut all = nothing();
    for part in &parts {
        all.pairs.add(&part.pairs);
        all.kinds.add(&part.kinds);
    }
    let rate = rate("pairs", all.pairs.compared, parts.len(), start);
    Ok((all, rate))
}

/// Tells what was compared; whether every kind was met.
fn report(Compared { pairs, kinds }: &Compared, rate: &str) -> bool {
    println!("{}{rate}\n{}", kinds.table(), told(SIDES));
    if let Some(pair) = pairs.longest.on() {
        let micros = pairs.longest.seconds() * 1e6;
        let who = SIDES[0].name;
        print!("slowest for {who}, {micros:.0} µs:\n{}", shown(pair));
    }
    let (compared, edges) = (pairs.compared, pairs.compared - kinds.pairs);
    println!(
        "edge pairs {edges}, of them passed over by the second program {}",
        pairs.passed_over
    );
    println!("pairs {compared}, differences 0");
    let met = !kinds.counts.contains(&0);
    if !met {
        println!("a kind of pair was NOT MET");
    }
    met
}

/// Compares, reports, and fails if anything differs, was not met or took too long.
fn main() -> ExitCode {
    let asked = Asked::read(std::env::args().skip(1), &[]);
    match asked.and_then(compare_all) {
        Ok((compared, rate)) if report(&compared, &rate) => ExitCode::SUCCESS,
        Ok(_) => ExitCode::FAILURE,
        Err(what) => {
            println!("{what}");
            ExitCode::FAILURE
        }
    }
}
