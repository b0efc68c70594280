//! The search desk: covering on member records, and the map by which one covers the other.

use crate::book::{decode_question, encode_term};
use crate::cover::{first_map, Map};
use crate::layout::{ANSWER, FIRST_CONSTANT, UNUSED};
use crate::term::Question;
use crate::width::{Width, ANSWER_PLACES};

/// A map in bytes: byte v is the byte of the term that variable v goes to, 255 where v does
/// not stand in the record that covers.
pub type Bytes = [u8; MAP];

/// The bytes of a map at both widths.
pub const MAP: usize = 66;

/// The map where there is none.
pub const NO_MAP: Bytes = [UNUSED; MAP];

/// What covering gives: "0 no, 1 yes, 2 first malformed, 3 second malformed; 2 wins." And the
/// first map of the first record to the second, if it is 1.
#[derive(Clone, Copy, Debug, PartialEq, Eq)]
pub struct Covered {
    pub number: u8,
    pub map: Bytes,
}

/// Which of the two is kept: 1 the first, which covers the second, "equivalent records give
/// the first"; 2 the second; 0 neither, for they are malformed or incomparable. And the first
/// map of the one that is kept to the other.
#[derive(Clone, Copy, Debug, PartialEq, Eq)]
pub struct Kept {
    pub which: u8,
    pub map: Bytes,
}

/// Whether the first record covers the second. "Covering and evaluating are told the width":
/// with another than 4 or 6 every record is malformed.
pub fn covers(first: &[u8], second: &[u8], width: usize) -> Covered {
    let without_map = |number| Covered {
        number,
        map: NO_MAP,
    };
    let Some(first) = question_of(first, width) else {
        return without_map(2);
    };
    let Some(second) = question_of(second, width) else {
        return without_map(3);
    };
    match first_map(&first, &second) {
        None => without_map(0),
        Some(map) => Covered {
            number: 1,
            map: bytes_of(&map),
        },
    }
}

/// Which of the two covers the other.
pub fn kept(first: &[u8], second: &[u8], width: usize) -> Kept {
    let there = covers(first, second, width);
    let back = covers(second, first, width);
    let (which, map) = match (there.number, back.number) {
        (1, _) => (1, there.map),
        (_, 1) => (2, back.map),
        _ => (0, NO_MAP),
    };
    Kept { which, map }
}

/// The bytes of a map. It has an image for the variables of the record that covers alone.
fn bytes_of(map: &Map) -> Bytes {
    let mut bytes = NO_MAP;
    for (variable, image) in map.images() {
        bytes[*variable] = encode_term(*image);
    }
    bytes
}

/// The record that covers the other, as a part of its own buffer. "Malformed or incomparable
/// ones give the empty part at the first's start."
pub fn keep<'r>(first: &'r [u8], second: &'r [u8], width: usize) -> &'r [u8] {
    match kept(first, second, width).which {
        1 => first,
        2 => second,
        _ => &first[..0],
    }
}

/// The question of a record: "1 to 11 atoms and exactly fitting length", now "0 to 11". It
/// has an answer record, which is not counted, exactly if its first atom's relation byte is
/// 255. The count 0 alone is sound.
pub fn question_of(record: &[u8], width: usize) -> Option<Question> {
    let width = Width::of(width)?;
    let (&count, atoms) = record.split_first()?;
    let answers = (atoms.first() == Some(&ANSWER)) as usize;
    let fits = count <= 11 && atoms.len() == width.atom() * (count as usize + answers);
    let mut records = atoms.chunks(width.atom());
    let mut answer = records.by_ref().take(answers);
    let sound = fits
        && answer.all(|record| has_places(record, ANSWER_PLACES, width))
        && records.all(|atom| atom[0] < 64 && has_places(atom, width.places(), width));
    sound.then(|| decode_question(atoms, width))
}

/// "first one to four places used with 0 to 63 or 128 to 254, the rest 255"; of width 6, one to
/// six and 0 to 65. So many places at most.
fn has_places(bytes: &[u8], most: usize, width: Width) -> bool {
    let places = &bytes[1..];
    let is_used = |byte: &u8| {
        (*byte as usize) < width.desk_variables() || (FIRST_CONSTANT..UNUSED).contains(byte)
    };
    let used = places.iter().take_while(|byte| is_used(byte)).count();
    (1..=most).contains(&used) && places[used..].iter().all(|&byte| byte == UNUSED)
}
