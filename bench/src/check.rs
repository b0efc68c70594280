//! What the two sides answer, byte for byte.

use crate::sides::{Side, ROOM, SIDES};
use crate::task::{Bytes, Task, Work};

/// What the output holds before a run whose answer is compared: a byte that neither side would
/// write everywhere, so that a byte written behind the union is seen.
const BEFORE: u8 = 0xa5;

/// All that a side answers: number, place and every byte of the output; or a byte for each pair.
pub fn answer(task: &Task, side: &Side) -> Vec<u8> {
    match &task.work {
        Work::Covers(width, pairs) => {
            let covers = |(a, b): &(Bytes, Bytes)| (side.covers)(a, b, width.places());
            pairs.iter().map(covers).collect()
        }
        Work::Run(book) => {
            let mut out = [BEFORE; ROOM];
            let (number, place) = (side.run)(book, &mut out);
            let mut answer = vec![number];
            answer.extend(place.to_le_bytes());
            answer.extend(out);
            answer
        }
    }
}

/// Members and explored questions of the union in such an answer; none if there is no union.
pub fn counts(task: &Task, answer: &[u8]) -> Option<(usize, usize)> {
    let word = |at: usize| u16::from_le_bytes([answer[9 + at], answer[10 + at]]) as usize;
    match task.work {
        Work::Run(_) if answer[0] == 0 => Some((word(0), word(2))),
        _ => None,
    }
}

/// The answer that both sides give, or how they differ.
pub fn agreed(task: &Task) -> Result<Vec<u8>, String> {
    let [proved, plain] = SIDES.map(|side| answer(task, &side));
    match proved.iter().zip(&plain).position(|(a, b)| a != b) {
        None => Ok(proved),
        Some(at) => Err(format!(
            "{}: the answers differ at byte {at}, proved {}, plain {}",
            task.name, proved[at], plain[at]
        )),
    }
}
