//! Books that no source gives, of both forms: too short or too long, offsets that do not fit, and
//! the bytes that the new form alone judges.

use crate::book;
use crate::damage::fact;
use crate::layout::UNUSED;
use crate::limits::smallest;
use crate::six::loan;
use crate::source;
use crate::width::Width;

/// A name and bytes.
type Named = (String, Vec<u8>);

/// Those made of the smallest book of this width.
pub fn books(width: Width) -> Vec<Named> {
    let mut smallest = source::read(&smallest()).unwrap().book;
    smallest.width = width;
    let sound = book::write(&smallest);
    let mut books = of_lengths(&sound);
    books.extend(cut_totals(&sound, width));
    books.extend(before_questions(&sound, width));
    let of_width = |(name, bytes)| (format!("{} places: {name}", width.places()), bytes);
    books.into_iter().map(of_width).collect()
}

/// Of other lengths than it has.
fn of_lengths(sound: &[u8]) -> Vec<Named> {
    let short = [0, 1, 17, 18, 19, 20, sound.len() - 1];
    let long = [sound.len() + 1, 65_535, 65_536, 65_537, 70_000];
    let of_length = |length: usize| {
        let mut bytes = sound.to_vec();
        bytes.resize(length, 0);
        (format!("{length} bytes"), bytes)
    };
    short.into_iter().chain(long).map(of_length).collect()
}

/// With the question's offset 65,535 and a total that is right only when cut to 16 bits.
fn cut_totals(sound: &[u8], width: Width) -> [Named; 2] {
    let atom = width.atom() as u8;
    let cut = |name: &str, total: u8| {
        let changes = [(14, 255), (15, 255), (16, total), (17, 0)];
        (name.to_string(), changed(sound, &changes))
    };
    [
        cut("a total cut to 16 bits", atom - 1),
        cut("an answered total cut to 16 bits", 2 * atom - 1),
    ]
}

/// With bytes before the question that are no rules, or not as many as are said.
fn before_questions(sound: &[u8], width: Width) -> Vec<Named> {
    let before = |rules: u8, more: &[u8]| before_question(sound, width.header() + 1, rules, more);
    let mut books = Vec::new();
    for (rules, more) in [(0, 1), (0, 2), (1, 0), (1, 1), (1, 2), (1, 7), (1, 12)] {
        let name = format!("{rules} rules said, {more} bytes there");
        books.push((name, before(rules, &vec![1; more])));
    }
    let fact = fact(width);
    for more in 1..=fact.len() {
        let name = format!("{more} bytes of a known thing");
        books.push((name, before(1, &fact[..more])));
    }
    for counts in [[0, 0], [0, 5], [5, 0], [1, 0]] {
        let rule = [&counts, &fact[2..]].concat();
        books.push((format!("the counts {counts:?}"), before(1, &rule)));
    }
    books
}

/// A book without rules that says it has so many, with these bytes before its question, which
/// stands there, and the offsets moved along.
fn before_question(sound: &[u8], at: usize, rules: u8, more: &[u8]) -> Vec<u8> {
    let mut bytes = sound.to_vec();
    bytes[4] = rules;
    bytes[14] += more.len() as u8;
    bytes[16] += more.len() as u8;
    bytes.splice(at..at, more.iter().copied());
    bytes
}

/// The bytes with some of them changed.
fn changed(sound: &[u8], changes: &[(usize, u8)]) -> Vec<u8> {
    let mut bytes = sound.to_vec();
    changes.iter().for_each(|&(at, value)| bytes[at] = value);
    bytes
}

/// Those made of a loan line asked for four of its places, for what the new form alone judges.
pub fn new_form() -> Vec<Named> {
    let text = loan("a(lender,who,sheet,room) : ");
    let sound = book::write(&source::read(&text).unwrap().book);
    let mut books = headers(&sound);
    books.extend(bytes_of_places(&sound));
    let new = |(name, bytes)| (format!("new: {name}"), bytes);
    books.into_iter().map(new).collect()
}

/// Another tenth word; too short for one, whatever else is wrong.
fn headers(sound: &[u8]) -> Vec<Named> {
    let mut books = Vec::new();
    for (low, high) in [(0, 0), (4, 0), (5, 0), (7, 0), (6, 1)] {
        let bytes = changed(sound, &[(18, low), (19, high)]);
        books.push((format!("tenth word {low} {high}"), bytes));
    }
    for length in [12, 17, 18, 19, 20, 21] {
        books.push((format!("{length} bytes"), sound[..length].to_vec()));
        let without = changed(sound, &[(0, 0)])[..length].to_vec();
        books.push((format!("{length} bytes, P 0"), without));
    }
    books
}

/// Answer records of too many places, variables around 31 and 47, relations of four to seven
/// places.
fn bytes_of_places(sound: &[u8]) -> Vec<Named> {
    let question = sound.len() - 3 * Width::Six.atom();
    let mut books = Vec::new();
    let mut push = |name: String, changes: &[(usize, u8)]| {
        books.push((name, changed(sound, changes)));
    };
    for (fifth, sixth) in [(0, UNUSED), (UNUSED, 0), (0, 0), (128, 47), (200, 0)] {
        let changes = [(question + 5, fifth), (question + 6, sixth)];
        push(format!("answer places {fifth} {sixth}"), &changes);
    }
    let gap = [(question + 3, UNUSED), (question + 5, 0)];
    push("an answer gap before a fifth place".into(), &gap);
    for value in [31, 32, 47, 48, 127] {
        for at in [question + 1, question + 8, question + 13] {
            push(format!("{value} at {at}"), &[(at, value)]);
        }
    }
    for places in [4, 5, 6, 7] {
        push(format!("{places} places of a loan"), &[(20, places)]);
        push(format!("{places} places of out"), &[(22, places)]);
    }
    books
}
