//! Damaged books of both forms: refusals 2 to 7 and 11 at many places, alone and competing.

use crate::book::{self, Book};
use crate::layout::{ANSWER, UNUSED};
use crate::random::Random;
use crate::width::{Width, WIDTHS};

/// Where the parts of a sound book's bytes begin.
struct Parts {
    rules: Vec<usize>,
    atoms: Vec<usize>,
    question: usize,
}

/// The bytes of the book with one to three things wrong (now and then with none).
pub fn damaged(book: &Book, random: &mut Random) -> Vec<u8> {
    let mut bytes = book::write(book);
    let parts = parts(book);
    let many = *random.one_of(&[1, 1, 1, 2, 3]);
    let same = random.percent(40);
    let mut kind = random.below(KINDS);
    for _ in 0..many {
        damage(kind, &mut bytes, book, &parts, random);
        if !same {
            kind = random.below(KINDS);
        }
    }
    bytes
}

/// Where the book's rules, atoms and question begin.
fn parts(book: &Book) -> Parts {
    let atom = book.width.atom();
    let mut at = book.width.header() + book.relations.len();
    let (mut rules, mut atoms) = (Vec::new(), Vec::new());
    for rule in &book.rules {
        rules.push(at);
        let many = rule.body.len() + rule.head.len();
        atoms.extend((0..many).map(|i| at + 2 + atom * i));
        at += 2 + atom * many;
    }
    let first = at + atom * book.question.is_answered() as usize;
    let question = (0..book.question.atoms.len()).map(|i| first + atom * i);
    atoms.extend(question);
    Parts {
        rules,
        atoms,
        question: at,
    }
}

/// How many kinds of damage there are, the commoner counted more than once.
const KINDS: usize = 22;

/// One thing wrong, of this kind.
fn damage(kind: usize, bytes: &mut Vec<u8>, book: &Book, parts: &Parts, random: &mut Random) {
    match kind {
        0 => bytes.truncate(random.below(book.width.header())),
        1 => bytes.truncate(random.below(bytes.len() + 1)),
        2 => lengthen(bytes, random),
        3 => header_limit(bytes, random),
        4 | 5 => header_word(bytes, book, random),
        6 => relation(bytes, book, random),
        7 | 8 => rule_count(bytes, parts, random),
        9 | 10 => rules_end(bytes, book, parts, random),
        11 => any_byte(bytes, random),
        12 => answer_total(bytes, book, random),
        20 => other_form(bytes, book, random),
        13..=15 => answer_record(bytes, book, parts, random),
        _ => atom(bytes, book, parts, random),
    }
}

/// Sets a byte, if it is there.
fn put(bytes: &mut [u8], at: usize, value: u8) {
    if let Some(byte) = bytes.get_mut(at) {
        *byte = value;
    }
}

/// Sets a header word, if it is there.
fn put_word(bytes: &mut [u8], word: usize, value: usize) {
    put(bytes, 2 * word, value as u8);
    put(bytes, 2 * word + 1, (value >> 8) as u8);
}

/// A header word, or 0.
fn get_word(bytes: &[u8], word: usize) -> usize {
    let byte = |at: usize| bytes.get(at).copied().unwrap_or(0) as usize;
    byte(2 * word) + 256 * byte(2 * word + 1)
}

/// Some byte of the book.
fn any_byte(bytes: &mut [u8], random: &mut Random) {
    let at = random.below(bytes.len().max(1));
    put(bytes, at, random.bits() as u8);
}

/// More bytes at the end, now and then very many.
fn lengthen(bytes: &mut Vec<u8>, random: &mut Random) {
    let more = match random.percent(4) {
        true => 65_520 + random.below(40),
        false => random.between(1, 12),
    };
    let value = random.bits() as u8;
    bytes.resize(bytes.len() + more, value);
}

/// One of P, C, R, N, L at or just past its limits; or the tenth word, which an old book does
/// not have.
fn header_limit(bytes: &mut [u8], random: &mut Random) {
    let limits: [(usize, &[usize]); 6] = [
        (0, &[0, 65, 66, 256, 65_535]),
        (1, &[128, 129, 256, 65_535]),
        (2, &[33, 34, 256, 65_535]),
        (3, &[0, 9, 10, 256, 65_535]),
        (4, &[0, 1001, 1002, 65_535]),
        (9, &[0, 4, 5, 7, 262, 65_535]),
    ];
    let (word, values) = random.one_of(&limits);
    put_word(bytes, *word, *random.one_of(values));
}

/// The relations' offset of the other form, now and then with all offsets moved along or the
/// bytes of a tenth word put in or taken out.
fn other_form(bytes: &mut Vec<u8>, book: &Book, random: &mut Random) {
    let (now, other) = (book.width.header(), book.width.other().header());
    put_word(bytes, 5, other);
    if random.percent(50) {
        for word in [6, 7, 8] {
            let moved = (get_word(bytes, word) + other).wrapping_sub(now);
            put_word(bytes, word, moved);
        }
    }
    if random.percent(50) && bytes.len() >= now {
        let tenth: &[u8] = if other > now { &[6, 0] } else { &[] };
        let words = 2 * WIDTHS[0].words();
        bytes.splice(words..now, tenth.iter().copied());
    }
}

/// Some header word a little or quite different.
fn header_word(bytes: &mut [u8], book: &Book, random: &mut Random) {
    let word = random.below(book.width.words());
    let old = get_word(bytes, word);
    let value = match random.below(4) {
        0 => old + random.between(1, 5),
        1 => old.wrapping_sub(random.between(1, 5)),
        2 => random.bits() as usize,
        _ => old ^ (1 << random.below(16)),
    };
    put_word(bytes, word, value);
    if random.percent(10) {
        cut_total(bytes, book.width, random);
    }
}

/// A question's offset so high that its total, with an answer record or without, is right
/// only when cut to 16 bits.
fn cut_total(bytes: &mut [u8], width: Width, random: &mut Random) {
    let question = 65_535 - random.below(3);
    let records = get_word(bytes, 3) + random.below(2);
    put_word(bytes, 7, question);
    put_word(bytes, 8, question + width.atom() * records);
}

/// A relation's number of places.
fn relation(bytes: &mut [u8], book: &Book, random: &mut Random) {
    let at = book.width.header() + random.below(book.relations.len());
    put(bytes, at, *random.one_of(&[0, 5, 6, 7, 128, 255]));
}

/// A count byte of some rule.
fn rule_count(bytes: &mut [u8], parts: &Parts, random: &mut Random) {
    if parts.rules.is_empty() {
        return;
    }
    let at = *random.one_of(&parts.rules) + random.below(2);
    put(
        bytes,
        at,
        *random.one_of(&[0, 1, 2, 3, 4, 4, 5, 6, 128, 255]),
    );
}

/// A rule with an empty body and one head atom, of one place.
pub fn fact(width: Width) -> Vec<u8> {
    let mut bytes = vec![0, 1, 0, 0];
    bytes.resize(2 + width.atom(), UNUSED);
    bytes
}

/// Another number of rules than there are, or bytes between the rules and the question, now
/// and then the beginning of a rule with an empty body, the offsets made to fit.
fn rules_end(bytes: &mut Vec<u8>, book: &Book, parts: &Parts, random: &mut Random) {
    let rules = match random.below(4) {
        0 => book.rules.len().saturating_sub(1),
        1 => 0,
        _ => book.rules.len() + 1,
    };
    put_word(bytes, 2, rules);
    let more = *random.one_of(&[0, 0, 1, 1, 2, 3, 7, 12, 17]);
    let at = parts.question.min(bytes.len());
    let value = *random.one_of(&[0, 1, 2, 4, 5, 255]);
    let more = match random.percent(20) {
        true => {
            let fact = fact(book.width);
            fact[..random.between(1, fact.len())].to_vec()
        }
        false => vec![value; more],
    };
    bytes.splice(at..at, more.iter().copied());
    for word in [7, 8] {
        let moved = get_word(bytes, word) + more.len();
        put_word(bytes, word, moved);
    }
}

/// The total that announces an answer record or does not, with the book's length moved
/// along or not; or the count of question atoms, so that one is taken for a record or a
/// record for one.
fn answer_total(bytes: &mut Vec<u8>, book: &Book, random: &mut Random) {
    if random.percent(40) {
        let atoms = get_word(bytes, 3) + 2 * random.below(2);
        return put_word(bytes, 3, atoms.wrapping_sub(1));
    }
    let (old, atom) = (get_word(bytes, 8), book.width.atom());
    let by = *random.one_of(&[1, atom - 1, 5, atom, atom, atom + 1, 7, 2 * atom]);
    let longer = random.percent(50);
    let new = match longer {
        true => old + by,
        false => old.saturating_sub(by),
    };
    put_word(bytes, 8, new);
    if random.percent(70) {
        let length = bytes.len();
        bytes.resize(length.saturating_sub(old) + new, UNUSED);
    }
}

/// A byte of the answer record, which is put there first if there is none.
fn answer_record(bytes: &mut Vec<u8>, book: &Book, parts: &Parts, random: &mut Random) {
    let at = parts.question.min(bytes.len());
    let (atom, variables) = (book.width.atom(), book.width.variables());
    if !book.question.is_answered() {
        let mut record = vec![UNUSED; atom];
        (record[0], record[1]) = (ANSWER, 0);
        bytes.splice(at..at, record);
        let total = get_word(bytes, 8) + atom;
        put_word(bytes, 8, total);
    }
    let variable = random.below(variables) as u8;
    let constant = (128 + book.constants).min(254) as u8;
    let place = at + random.between(1, book.width.places());
    match random.below(5) {
        0 => put(bytes, at, *random.one_of(&[0, 1, 63, 64, 128, 254])),
        1 => put(bytes, at + 1, UNUSED),
        2 => put(
            bytes,
            place,
            *random.one_of(&[31, 32, variables as u8, 127, constant, 254, UNUSED]),
        ),
        _ => put(bytes, place, variable),
    }
}

/// A byte of some atom.
fn atom(bytes: &mut [u8], book: &Book, parts: &Parts, random: &mut Random) {
    let at = *random.one_of(&parts.atoms);
    if random.percent(30) {
        let past = book.relations.len() + random.below(3);
        let value = *random.one_of(&[past, 64, 128, 255]);
        put(bytes, at, value as u8);
        return;
    }
    let constant = 128 + book.constants + random.below(2);
    let next = book.width.variables();
    let values = [
        0,
        next - 1,
        next,
        32,
        33,
        127,
        128,
        constant,
        constant,
        254,
        255,
        255,
    ];
    let value = *random.one_of(&values);
    let place = random.between(1, book.width.places());
    put(bytes, at + place, value.min(255) as u8);
}

/// Every byte of a book at telling values, every length up to some more than its own, and
/// every header word at its limits.
pub fn sweep(book: &Book) -> Vec<Vec<u8>> {
    let sound = book::write(book);
    let mut books = Vec::new();
    for at in 0..sound.len() {
        for value in [
            0, 1, 4, 5, 6, 7, 18, 20, 31, 32, 47, 48, 127, 128, 129, 254, 255,
        ] {
            let mut bytes = sound.clone();
            bytes[at] = value;
            books.push(bytes);
        }
    }
    for length in 0..sound.len() + 8 {
        let mut bytes = sound.clone();
        bytes.resize(length, 255);
        books.push(bytes);
    }
    for word in 0..book.width.words() {
        let old = get_word(&sound, word);
        let near = [old.wrapping_sub(1), old + 1, old + 5, old + 7];
        let limits = [0, 1, 8, 9, 32, 33, 64, 65, 127, 128, 1000, 1001, 65_535];
        for value in near.into_iter().chain(limits) {
            let mut bytes = sound.clone();
            put_word(&mut bytes, word, value);
            books.push(bytes);
        }
    }
    books
}

/// Every thirteenth byte of a book at a value that is allowed in few places.
pub fn far(book: &Book) -> Vec<Vec<u8>> {
    let sound = book::write(book);
    let places = (0..sound.len()).step_by(13);
    places
        .map(|at| {
            let mut bytes = sound.clone();
            bytes[at] = 77;
            bytes
        })
        .collect()
}
