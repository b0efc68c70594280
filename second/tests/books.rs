//! The text form, and the books that are kept as text and bytes.

mod common;

use common::{kept_text, read};
use second::print::print;
use second::random::Random;
use second::seen::Seen;
use second::term::Question;
use second::{book, generate, source};
use std::path::PathBuf;

/// The names of all kept books.
fn names() -> Vec<String> {
    let directory = PathBuf::from(concat!(env!("CARGO_MANIFEST_DIR"), "/../books"));
    let entries = std::fs::read_dir(directory).unwrap().flatten();
    let mut names: Vec<String> = entries
        .map(|entry| entry.path())
        .filter(|path| path.extension().is_some_and(|e| e == "txt"))
        .map(|path| path.file_stem().unwrap().to_string_lossy().into())
        .collect();
    names.sort();
    names
}

/// The bytes of a kept book.
fn kept_bytes(name: &str) -> Vec<u8> {
    let path = format!("{}/../books/{name}.book", env!("CARGO_MANIFEST_DIR"));
    std::fs::read(&path).unwrap_or_else(|e| panic!("{path}: {e}"))
}

#[test]
fn kept_bytes_are_what_the_sources_give() {
    assert!(names().len() >= 30);
    for name in names() {
        let made = book::write(&read(&kept_text(&name)).book);
        assert_eq!(made, kept_bytes(&name), "{name}");
    }
}

#[test]
fn the_list_of_books_says_what_is_printed() {
    let path = concat!(env!("CARGO_MANIFEST_DIR"), "/../books/README.md");
    let list = std::fs::read_to_string(path).unwrap();
    let rows: Vec<&str> = list.lines().filter(|l| l.starts_with("| `")).collect();
    assert_eq!(rows.len(), names().len());
    for (row, name) in rows.iter().zip(names()) {
        let printed = print(&kept_bytes(&name));
        let first = printed.lines().next().unwrap();
        assert!(row.starts_with(&format!("| `{name}` |")), "{row}");
        assert!(row.ends_with(&format!("| `{first}` |")), "{row}");
    }
}

#[test]
fn a_shown_book_gives_the_same_bytes() {
    let mut random = Random::new(7);
    let mut books: Vec<Vec<u8>> = names().iter().map(|name| kept_bytes(name)).collect();
    books.extend((0..500).map(|_| book::write(&generate::sound(&mut random))));
    for bytes in books {
        let read_back = book::read(&bytes, &mut Seen::default()).unwrap();
        assert_eq!(book::write(&read_back), bytes);
        assert_eq!(book::write(&read(&source::show(&read_back)).book), bytes);
    }
}

#[test]
fn variables_are_numbered_as_they_appear_but_v7_is_number_7() {
    let text = "relation p 3\nrule p(x,y,v7) -> p(y,v0,z)\nquestion p(b,a,b)\nallow 1\n";
    let bytes = book::write(&read(text).book);
    assert_eq!(bytes[21..31], [0, 1, 2, 7, 255, 0, 2, 0, 3, 255]);
    assert_eq!(bytes[31..], [0, 0, 1, 0, 255]);
}

#[test]
fn answer_places_stand_before_a_colon() {
    let text = "relation p 2\nconstant A\nquestion a(y,A,y) : p(x,y) p(v0,x)\nallow 1\n";
    let source = read(text);
    let bytes = book::write(&source.book);
    // The answer places come first, so y is the first variable that is not v0.
    assert_eq!(
        bytes[19..],
        [255, 1, 128, 1, 255, 0, 2, 1, 255, 255, 0, 0, 2, 255, 255]
    );
    assert_eq!(bytes[16..18], [19 + 15, 0]);
    let told = source.tell(&source.book.question);
    assert_eq!(told, "a(v1,A,v1) : p(v2,v1) p(v0,v2)");
    assert!(source::show(&source.book).contains("question a(v1,c0,v1) : r0(v2,v1) r0(v0,v2)\n"));
    // A relation may have the name a.
    let named = read("relation a 1\nquestion a(x) : a(x)\nallow 1\n");
    assert_eq!(named.tell(&named.book.question), "a(v0) : a(v0)");
}

#[test]
fn a_rule_may_have_nothing_before_the_arrow() {
    let text = "relation p 1\nrule -> p(y)\nrule p(x) -> p(y)\nquestion p(x)\nallow 1\n";
    let source = read(text);
    let bytes = book::write(&source.book);
    assert_eq!(bytes[19..26], [0, 1, 0, 0, 255, 255, 255]);
    assert_eq!(bytes[26..28], [1, 1]);
    assert!(source::show(&source.book).contains("rule -> r0(v0)\nrule r0(v0) -> r0(v1)\n"));
    let known = Question::boolean(Vec::new());
    assert_eq!(source.tell(&known), "always");
}

/// What is wrong with a source.
fn wrong(text: &str) -> String {
    source::read(text).err().unwrap_or_default()
}

#[test]
fn what_is_wrong_is_said_with_its_line() {
    let with = |line: &str| {
        wrong(&format!(
            "relation p 1\nconstant A\n{line}\nquestion p(x)\nallow 1\n"
        ))
    };
    assert_eq!(with("# all is well"), "");
    assert_eq!(
        with("rule p(x) -> p(B)"),
        "line 3: constant `B` is not declared"
    );
    assert_eq!(with("rule p(x) -> q(x)"), "line 3: `q` is no relation");
    assert_eq!(with("rule p(x)"), "line 3: a rule has an arrow `->`");
    assert_eq!(with("rule p(x) ->"), "line 3: no atom");
    assert_eq!(with("rule -> p(x)"), "");
    assert_eq!(with("rule ->"), "line 3: no atom");
    assert_eq!(with("question"), "line 3: no atom");
    assert_eq!(
        with("rule p(x,y) -> p(x)"),
        "line 3: `p` has 1 places and not 2"
    );
    assert_eq!(with("relation p 2"), "line 3: `p` is declared twice");
    assert_eq!(with("relation q 7"), "line 3: places: `7` is not 1 to 6");
    assert_eq!(with("relation q 6"), "");
    assert_eq!(with("places 6"), "");
    assert_eq!(
        with("places 4"),
        "line 3: `places 4`: say 6, or nothing for the old form"
    );
    assert_eq!(with("question p(A)"), "line 4: a second question");
    for (question, what) in [
        ("a(y) : p(x)", "an answer variable stands in no atom"),
        ("a(x) :", "no atom"),
        ("(x) : p(x)", "answer places are written a(..)"),
        ("a() : p(x)", "`` is no term"),
        ("a(x,x,x,x,x) : p(x)", "more than 4 answer places"),
        ("a(B) : p(x)", "constant `B` is not declared"),
    ] {
        let said = with(&format!("question {question}"));
        assert_eq!(said, format!("line 3: {what}"));
    }
    assert_eq!(with("forbid 3"), "line 3: `forbid` begins no line");
    assert_eq!(wrong("relation p 1\nallow 1\n"), "there is no question");
    assert_eq!(
        wrong("relation p 1\nquestion p(x)\n"),
        "there is no `allow`"
    );
}
