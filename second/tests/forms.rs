//! The two forms of a book: copied there and back, run alike, in the text form; the desk told
//! its width.

mod common;

use common::{kept, read};
use second::book::{self, Book};
use second::copying::{to_new, to_old, BOOK_ROOM};
use second::desk::{covers, keep, kept as kept_of, MAP, NO_MAP};
use second::layout::UNUSED;
use second::random::Random;
use second::run::{run, Answer};
use second::seen::Seen;
use second::union::{self, OUTPUT_ROOM};
use second::width::{Width, WIDTHS};
use second::{generate, limits, source};

/// What a buffer holds before.
const BEFORE: u8 = 99;

/// A way to copy a book.
type Copies = fn(&[u8], &mut [u8]) -> Answer;

/// The copy of a book, or the refusal; nothing else may be written.
fn copied(copies: Copies, bytes: &[u8]) -> Result<Vec<u8>, (usize, usize)> {
    let mut out = vec![BEFORE; BOOK_ROOM + 9];
    let Answer { number, place } = copies(bytes, &mut out);
    let written = if number == 0 { place } else { 0 };
    assert!(out[written..].iter().all(|&byte| byte == BEFORE));
    out.truncate(written);
    match number {
        0 => Ok(out),
        _ => Err((number, place)),
    }
}

/// The books made on purpose and some generated ones.
fn books() -> Vec<Vec<u8>> {
    let mut random = Random::new(41);
    let mut books: Vec<Vec<u8>> = limits::books().into_iter().map(|(_, b)| b).collect();
    books.extend((0..20_000).map(|_| generate::next(&mut random)));
    books
}

/// Whether a sound book has an old form, from the book and not from its bytes.
fn has_old_form(book: &Book) -> bool {
    let in_rules = book
        .rules
        .iter()
        .flat_map(|rule| rule.body.iter().chain(&rule.head));
    let atoms = in_rules.chain(&book.question.atoms);
    let mut terms = atoms
        .flat_map(|atom| &atom.terms)
        .chain(&book.question.answer);
    book.relations.iter().all(|&places| places <= 4)
        && terms.all(|term| term.variable().is_none_or(|v| v < 32))
}

/// How often each kind of book was met.
#[derive(Default)]
struct Met {
    old: usize,
    new: usize,
    without_old_form: usize,
    refused: usize,
}

/// Both copies of an old book.
fn copies_of_old(bytes: Vec<u8>, met: &mut Met) {
    let there = copied(to_new, &bytes).unwrap();
    assert_eq!(copied(to_old, &bytes), Ok(bytes.clone()));
    assert_eq!(copied(to_old, &there), Ok(bytes));
    assert_eq!(copied(to_new, &there), Ok(there));
    met.old += 1;
}

/// Both copies of a new book.
fn copies_of_new(bytes: Vec<u8>, book: &Book, met: &mut Met) {
    assert_eq!(copied(to_new, &bytes), Ok(bytes.clone()));
    let back = copied(to_old, &bytes);
    assert_eq!(back.is_ok(), has_old_form(book), "{book:?}");
    match back {
        Ok(back) => {
            assert_eq!(copied(to_new, &back), Ok(bytes));
            met.new += 1;
        }
        Err((number, place)) => {
            let is_count = place < 20 + book.relations.len();
            let beyond = if is_count { 5..=6 } else { 32..=47 };
            assert!(number == 13 && beyond.contains(&bytes[place]));
            met.without_old_form += 1;
        }
    }
}

#[test]
fn there_and_back_gives_the_first_bytes() {
    let mut met = Met::default();
    for bytes in books() {
        match book::read(&bytes, &mut Seen::default()) {
            Ok(book) if book.width == Width::Six => copies_of_new(bytes, &book, &mut met),
            Ok(_) => copies_of_old(bytes, &mut met),
            Err(fault) => {
                let refused = Err((fault.number, fault.place));
                assert_eq!(copied(to_new, &bytes), refused);
                assert_eq!(copied(to_old, &bytes), refused);
                met.refused += 1;
            }
        }
    }
    assert!(met.old > 5000 && met.new > 1000);
    assert!(met.without_old_form > 1000 && met.refused > 3000);
}

#[test]
fn the_place_of_13() {
    let refused = |text: &str| copied(to_old, &book::write(&read(text).book));
    let text =
        "places 6\nrelation p 1\nrelation q 4\nrule p(v31) -> p(x)\nquestion p(x)\nallow 1\n";
    assert!(refused(text).is_ok());
    let wide = text.replace("q 4", "q 5");
    assert_eq!(refused(&wide), Err((13, 21)));
    assert_eq!(
        refused(
            &wide
                .replace("p 1", "p 6")
                .replace("x)", "x,x,x,x,x,x)")
                .replace("(v31)", "(v31,x,x,x,x,x)")
        ),
        Err((13, 20))
    );
    assert_eq!(refused(&text.replace("v31", "v32")), Err((13, 25)));
    assert_eq!(
        refused(&text.replace("-> p(x)", "-> p(v47)")),
        Err((13, 32))
    );
    assert_eq!(
        refused(&text.replace("question p(x)", "question p(v40)")),
        Err((13, 39))
    );
    let asked = text.replace("question p(x)", "question a(c,v40) : p(v40)");
    let asked = asked.replace("rule", "constant c\nrule");
    assert_eq!(refused(&asked), Err((13, 40)));
    assert_eq!(refused(&asked.replace("q 4", "q 6")), Err((13, 21)));
}

#[test]
fn a_copy_asks_for_room_first() {
    let sound = book::write(&kept("printed").book);
    for bytes in [&sound[..], &[], &[255; 40]] {
        for copies in [to_new as Copies, to_old] {
            for room in [0, 1, sound.len(), BOOK_ROOM - 1] {
                let mut out = vec![BEFORE; room];
                let Answer { number, place } = copies(bytes, &mut out);
                assert_eq!((number, place), (1, 0));
                assert!(out.iter().all(|&byte| byte == BEFORE));
            }
        }
    }
    let mut out = vec![BEFORE; BOOK_ROOM];
    assert_eq!(to_new(&sound, &mut out).number, 0);
}

#[test]
fn the_printed_book_in_the_new_form() {
    let sound = book::write(&kept("printed").book);
    let words: [u16; 10] = [3, 0, 1, 2, 10, 20, 23, 46, 60, 6];
    let mut bytes: Vec<u8> = words.iter().flat_map(|word| word.to_le_bytes()).collect();
    bytes.extend([1, 1, 2, 1, 2]);
    let u = UNUSED;
    for atom in [[0, 0, u], [1, 1, u], [2, 0, 1], [1, 0, u], [2, 1, 0]] {
        bytes.extend(atom);
        bytes.extend([u; 4]);
    }
    assert_eq!(copied(to_new, &sound), Ok(bytes.clone()));
    assert_eq!(second::print::print(&bytes), second::print::print(&sound));
    let mut out = [BEFORE; OUTPUT_ROOM];
    assert_eq!(run(&bytes, &mut out).place, 8 + 1 + 14 + 1 + 7);
}

/// What a run gives: the members and the count explored, or the refusal.
fn ran(bytes: &[u8], width: Width) -> Result<(Vec<second::term::Question>, usize), (usize, usize)> {
    let mut out = vec![BEFORE; OUTPUT_ROOM];
    match run(bytes, &mut out) {
        Answer { number: 0, place } => Ok(union::read(&out[..place], width)),
        Answer { number, place } => Err((number, place)),
    }
}

#[test]
fn both_forms_run_alike() {
    let mut random = Random::new(42);
    let mut complete = 0;
    for _ in 0..4000 {
        let mut book = generate::sound(&mut random);
        if !has_old_form(&book) {
            continue;
        }
        let [old, new] = WIDTHS.map(|width| {
            book.width = width;
            ran(&book::write(&book), width)
        });
        assert_eq!(old, new, "{}", source::show(&book));
        complete += old.is_ok() as usize;
    }
    assert!(complete > 500, "{complete}");
}

#[test]
fn a_text_is_of_the_new_form_for_wide_relations_or_by_a_line() {
    let width = |text: &str| read(&format!("{text}question p(x)\nallow 1\n")).book.width;
    assert_eq!(width("relation p 1\nrelation q 4\n"), Width::Four);
    assert_eq!(width("relation p 1\nrelation q 5\n"), Width::Six);
    assert_eq!(width("relation p 1\nplaces 6\n"), Width::Six);
    let names: Vec<String> = (0..48).map(|i| format!("x{i}")).collect();
    let atoms = |names: &[String]| -> String {
        let atom = |four: &[String]| format!("p({}) ", four.join(","));
        names.chunks(4).map(atom).collect()
    };
    let text = |first: &str, many: usize| {
        let (body, head) = names[..many].split_at(16);
        let (body, head) = (atoms(body), atoms(&head[..16.min(head.len())]));
        format!("{first}relation p 4\nrule {body}-> {head}\nquestion p(x,x,x,x)\nallow 1\n")
    };
    assert!(source::read(&text("", 32)).is_ok());
    let wide = |line: &str| {
        let six = |i: usize| format!("q({})", names[6 * i..6 * i + 6].join(","));
        let question: Vec<String> = (0..8).map(six).collect();
        let question = question.join(" ");
        format!("{line}relation q 6\nquestion {question}\nallow 1\n")
    };
    assert!(source::read(&wide("")).is_ok());
    let two = "relation p 2\nquestion p(v47,v46)\nallow 1\n";
    // In the old form v47 is a name like any other.
    assert_eq!(
        read(two).book.question.atoms[0].terms[0].variable(),
        Some(0)
    );
    let new = read(&format!("places 6\n{two}")).book;
    assert_eq!(new.question.atoms[0].terms[0].variable(), Some(47));
    assert!(source::show(&new).starts_with("places 6\n"));
}

/// A record of one atom of width 6.
fn six(places: [u8; 6]) -> Vec<u8> {
    [&[1, 0][..], &places].concat()
}

#[test]
fn the_desk_is_told_the_width() {
    const U: u8 = UNUSED;
    let (wide, special) = (six([0, 1, 2, 3, 4, 65]), six([0, 1, 2, 3, 4, 128]));
    let covered = covers(&wide, &special, 6);
    assert_eq!((covered.number, covered.map[65], MAP), (1, 128, 66));
    assert_eq!(covers(&special, &wide, 6).number, 0);
    assert!(std::ptr::eq(keep(&special, &wide, 6), &wide[..]));
    for width in [0, 1, 3, 4, 5, 7, 255, 256 + 6, usize::MAX] {
        let covered = covers(&wide, &special, width);
        assert_eq!((covered.number, covered.map), (2, NO_MAP), "{width}");
        assert_eq!(kept_of(&wide, &special, width).which, 0);
        assert!(keep(&wide, &special, width).is_empty());
        assert_eq!(
            covers(&[0], &[0], width).number,
            if width == 4 { 1 } else { 2 }
        );
    }
    let sound = |record: &[u8], width| covers(record, record, width).number == 1;
    assert!(sound(&six([65, U, U, U, U, U]), 6) && !sound(&six([66, U, U, U, U, U]), 6));
    let four = |variable| [1, 0, variable, U, U, U];
    assert!(sound(&four(63), 4) && !sound(&four(64), 4));
    let asked = |places: [u8; 6]| [&[0, 255][..], &places].concat();
    assert!(sound(&asked([0, 1, 2, 3, U, U]), 6));
    for places in [
        [0, 1, 2, 3, 4, U],
        [0, 1, 2, 3, U, 4],
        [0, U, U, U, 1, U],
        [0, U, U, U, U, 0],
    ] {
        assert!(!sound(&asked(places), 6), "{places:?}");
    }
}
