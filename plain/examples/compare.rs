//! A long comparison: `compare BOOKS CROWDED PAIRS SEED..`. Runs this program and the second
//! one on so many generated books, crowded books and pairs for each seed; stops at the first
//! difference.

#[path = "../tests/common/mod.rs"]
mod common;
#[path = "../tests/common/shapes.rs"]
mod shapes;

use second::random::Random;
use second::{generate, pairs};

fn main() {
    let numbers = std::env::args().skip(1).map(|word| word.parse().unwrap());
    let numbers: Vec<u64> = numbers.collect();
    let [books, crowded, desk, seeds @ ..] = &numbers[..] else {
        panic!("compare BOOKS CROWDED PAIRS SEED..");
    };
    for &seed in seeds {
        let mut random = Random::new(seed);
        for i in 0..*books {
            let (name, book) = (format!("seed {seed}, {i}"), generate::next(&mut random));
            common::same(&name, &book);
            common::same_copies(&name, &book);
        }
        for i in 0..*crowded {
            let name = format!("seed {seed}, crowded {i}");
            common::same(&name, &shapes::crowded(&mut random));
        }
        (0..*desk).for_each(|_| common::same_pair(&pairs::next(&mut random)));
        println!("seed {seed}: {books} and {crowded} crowded books, {desk} pairs alike");
    }
}
