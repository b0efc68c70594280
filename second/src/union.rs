//! The union as written.

use crate::book::{decode_question, encode_question};
use crate::explore::{MOST_ATOMS, ROOM};
use crate::layout::ANSWER;
use crate::term::Question;
use crate::width::Width;

/// "Output room becomes 4,104 for all": 8 + 64 x 64 bytes.
pub const OUTPUT_ROOM: usize = 4104;

/// The most bytes of a union of this width, with answer records or without.
pub fn largest(width: Width, answered: bool) -> usize {
    UNION_HEADER + ROOM * (1 + width.atom() * (MOST_ATOMS + answered as usize))
}

/// The length of the four words before the members.
pub const UNION_HEADER: usize = 8;

/// "Four little-endian 16-bit words: members, questions explored, offset of the first
/// member (8), total length. Then each member in order of arrival".
pub fn write(members: &[Question], explored: usize, width: Width) -> Vec<u8> {
    let records = members.iter().flat_map(|member| record(member, width));
    let records: Vec<u8> = records.collect();
    let total = UNION_HEADER + records.len();
    let mut bytes: Vec<u8> = Vec::new();
    for word in [members.len(), explored, UNION_HEADER, total] {
        bytes.extend((word as u16).to_le_bytes());
    }
    bytes.extend(records);
    bytes
}

/// A member: "one count byte and its atoms, five bytes each", in the new form "seven bytes
/// too"; the answer record stands "uncounted after the count byte". "A member without atoms is
/// written with count 0".
pub fn record(member: &Question, width: Width) -> Vec<u8> {
    let mut bytes = vec![member.atoms.len() as u8];
    bytes.extend(encode_question(member, width));
    bytes
}

/// The smallest union: a member without atoms or answers alone.
pub const SMALLEST: usize = UNION_HEADER + 1;

/// The members and the count of questions explored, from the bytes of a union of this width,
/// which they do not tell. A byte of 255 after a count is an answer record's: behind a lone count 0 stands the next one's count,
/// or nothing.
pub fn read(bytes: &[u8], width: Width) -> (Vec<Question>, usize) {
    let word = |at: usize| u16::from_le_bytes([bytes[at], bytes[at + 1]]) as usize;
    let mut at = word(4);
    let mut members = Vec::new();
    for _ in 0..word(0) {
        let answered = bytes.get(at + 1) == Some(&ANSWER);
        let end = at + 1 + width.atom() * (bytes[at] as usize + answered as usize);
        members.push(decode_question(&bytes[at + 1..end], width));
        at = end;
    }
    (members, word(2))
}
