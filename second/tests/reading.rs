//! Reading once more, as a list of questions asked in order, against the least of all
//! faults; and books, records and unions there and back.

use second::book::{self, Book};
use second::explore::{explore, Outcome};
use second::print::print;
use second::random::Random;
use second::refuse::{faults, least};
use second::seen::Seen;
use second::width::WIDTHS;
use second::{generate, limits, source, union};

/// The first refusal that is met when the questions are asked in the order of their
/// numbers, and within a number from the first byte on.
fn first_refusal(b: &[u8]) -> Option<(usize, usize)> {
    if b.len() < 18 {
        return Some((2, 0));
    }
    let w = |i: usize| b[2 * i] as usize | (b[2 * i + 1] as usize) << 8;
    let (h, m) = if w(5) == 20 { (20, 6) } else { (18, 4) };
    if b.len() < h {
        return Some((2, 0));
    }
    let (p, c, r, n, l) = (w(0), w(1), w(2), w(3), w(4));
    if p == 0 || p > 64 || c > 127 || r > 32 || n == 0 || n > 8 || l == 0 || l > 1000 {
        return Some((3, 0));
    }
    if h == 20 && w(9) != 6 {
        return Some((3, 0));
    }
    let (q, total, a) = (w(7), w(8), m + 1);
    let fits = total == q + a * n || total == q + a * n + a;
    if w(5) != h || w(6) != h + p || q < h + p || !fits || total != b.len() {
        return Some((4, 0));
    }
    let bad = (h..h + p).find(|&at| !(1..=m).contains(&(b[at] as usize)));
    if let Some(at) = bad {
        return Some((5, at));
    }
    let mut at = h + p;
    let mut atoms = Vec::new();
    for _ in 0..r {
        let start = at;
        if q - at < 2 || b[at] > 4 || !(1..=4).contains(&b[at + 1]) {
            return Some((6, start));
        }
        let many = (b[at] + b[at + 1]) as usize;
        at += 2 + a * many;
        if at > q {
            return Some((6, start));
        }
        atoms.extend((0..many).map(|i| start + 2 + a * i));
    }
    if at != q {
        return Some((6, at));
    }
    let announced = total > q + a * n;
    let asked: Vec<usize> = (q + a * announced as usize..total).step_by(a).collect();
    let in_rules = atoms.iter().find_map(|&at| bad_byte(b, at, p, c, m));
    let in_answer = || bad_answer(b, q, c, m).filter(|_| announced);
    let in_question = || asked.iter().find_map(|&at| bad_byte(b, at, p, c, m));
    let bad = in_rules.or_else(in_answer).or_else(in_question);
    bad.or_else(|| unbound(b, q, &asked, m).filter(|_| announced))
}

/// The first byte of an answer record whose variable is in none of these atoms.
fn unbound(b: &[u8], at: usize, asked: &[usize], m: usize) -> Option<(usize, usize)> {
    let stands = |x: u8| asked.iter().any(|a| b[a + 1..=a + m].contains(&x));
    let mut places = at + 1..at + 5;
    places
        .find(|&place| (b[place] as usize) < 8 * m && !stands(b[place]))
        .map(|place| (11, place))
}

/// The first byte of an answer record that is not allowed.
fn bad_answer(b: &[u8], at: usize, c: usize, m: usize) -> Option<(usize, usize)> {
    if b[at] != 255 {
        return Some((7, at));
    }
    let mut ended = false;
    for (i, x) in b[at + 1..=at + m].iter().map(|&x| x as usize).enumerate() {
        ended |= i == 4;
        let allowed = match x {
            255 => i > 0,
            _ => !ended && (x < 8 * m || (x >= 128 && x < 128 + c)),
        };
        if !allowed {
            return Some((7, at + 1 + i));
        }
        ended |= x == 255;
    }
    None
}

/// The first byte of an atom that is not allowed.
fn bad_byte(b: &[u8], at: usize, p: usize, c: usize, m: usize) -> Option<(usize, usize)> {
    if b[at] as usize >= p {
        return Some((7, at));
    }
    let first = if m == 6 { 20 } else { 18 };
    let used = b[first + b[at] as usize] as usize;
    let allowed = |i: usize| {
        let x = b[at + i] as usize;
        match i <= used {
            true => x < 8 * m || (x >= 128 && x < 128 + c),
            false => x == 255,
        }
    };
    (1..=m).find(|&i| !allowed(i)).map(|i| (7, at + i))
}

#[test]
fn the_least_fault_is_the_first_that_is_met() {
    let mut random = Random::new(21);
    let mut books: Vec<Vec<u8>> = limits::books().into_iter().map(|(_, b)| b).collect();
    books.extend((0..30_000).map(|_| generate::next(&mut random)));
    let mut refused = 0;
    for bytes in books {
        let found = faults(&bytes);
        let found = least(&found).map(|f| (f.number, f.place));
        assert_eq!(found, first_refusal(&bytes), "{bytes:?}");
        refused += found.is_some() as usize;
    }
    assert!(refused > 5000);
}

#[test]
fn answer_records_by_every_value_of_their_bytes() {
    let book = "relation p 1\nconstant a b\nquestion a(x,b) : p(x) p(v3)\nallow 9\n";
    let book = source::read(book).unwrap().book;
    for width in WIDTHS {
        let sound = book::write(&Book {
            width,
            ..book.clone()
        });
        let at = sound.len() - 3 * width.atom();
        let mut met = [0; 12];
        for value in 0..=255 {
            for place in 0..width.atom() {
                for other in [0, 1, 32, 48, 130, 255] {
                    let mut bytes = sound.clone();
                    bytes[at + width.places()] = other;
                    bytes[at + place] = value;
                    let found = faults(&bytes);
                    let found = least(&found).map(|f| (f.number, f.place));
                    assert_eq!(found, first_refusal(&bytes), "{bytes:?}");
                    met[found.map_or(0, |(number, _)| number)] += 1;
                }
            }
        }
        assert!(met[0] > 0 && met[7] > 0 && met[11] > 0, "{met:?}");
    }
}

#[test]
fn rules_by_every_value_of_their_counts() {
    let book = "relation p 1\nrule -> p(x)\nrule p(x) -> p(y) p(x)\nquestion p(x)\nallow 9\n";
    let sound = book::write(&source::read(book).unwrap().book);
    assert_eq!(sound[19..21], [0, 1]);
    let mut met = [0; 12];
    for body in 0..=255 {
        for head in 0..=255 {
            for at in [19, 26] {
                let mut bytes = sound.clone();
                (bytes[at], bytes[at + 1]) = (body, head);
                let found = faults(&bytes);
                let found = least(&found).map(|f| (f.number, f.place));
                assert_eq!(found, first_refusal(&bytes), "{bytes:?}");
                met[found.map_or(0, |(number, _)| number)] += 1;
            }
        }
    }
    // Sound are both as they were, and the second with an atom more before the arrow and one
    // fewer after it, or the other way round.
    assert_eq!((met[0], met[6] > 0), (1 + 3, true), "{met:?}");
}

#[test]
fn books_and_unions_there_and_back() {
    let mut random = Random::new(22);
    let mut always = 0;
    for _ in 0..2000 {
        let book = generate::sound(&mut random);
        let bytes = book::write(&book);
        assert_eq!(book::read(&bytes, &mut Seen::default()), Ok(book.clone()));
        if let Outcome::Complete { members, explored } = explore(&book, &mut Seen::default()) {
            always += members.iter().filter(|m| m.is_always()).count();
            let written = union::write(&members, explored, book.width);
            assert!(written.len() <= union::OUTPUT_ROOM);
            assert_eq!(union::read(&written, book.width), (members, explored));
            assert!(print(&bytes).starts_with("members "));
        }
    }
    assert!(always > 50, "{always}");
}
