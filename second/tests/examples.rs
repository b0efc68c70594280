//! The build paper's examples 1 to 11 and its printed book, and things simply known.

mod common;

use common::{kept, members_by, printed, read, refused, rewritings, told};
use second::book;
use second::cover::covers;
use second::explore::Outcome;
use second::ledger::{check, ledgers};
use second::print::print;
use second::random::Random;
use second::run::run;
use second::term::{Question, Term};
use second::union::OUTPUT_ROOM;
use second::way::Way;

/// Two questions over p (two places) and q (one place), with a constant c0.
fn questions(a: &str, b: &str) -> (Question, Question) {
    let question = |text: &str| {
        let head = "relation p 2\nrelation q 1\nconstant c0\nallow 1\nquestion ";
        read(&format!("{head}{text}")).book.question
    };
    (question(a), question(b))
}

/// Whether the first covers the second, and the converse.
fn both(a: &str, b: &str) -> (bool, bool) {
    let (a, b) = questions(a, b);
    (covers(&a, &b), covers(&b, &a))
}

#[test]
fn example_1_two_variables_go_to_one_term() {
    assert_eq!(both("p(v0,v1)", "p(v0,v0)"), (true, false));
}

#[test]
fn example_2_a_variable_goes_to_a_constant() {
    assert_eq!(both("q(v0)", "q(c0)"), (true, false));
}

#[test]
fn example_3_two_atoms_go_to_one() {
    assert_eq!(both("p(v0,v1) p(v1,v0)", "p(c0,c0)"), (true, false));
}

#[test]
fn examples_4_to_6_have_no_valid_choice() {
    for name in ["example-04", "example-05", "example-06"] {
        assert_eq!(rewritings(&kept(name)), vec![], "{name}");
        assert_eq!(told(name).len(), 1, "{name}");
    }
}

#[test]
fn example_7_three_choices_one_member() {
    let found = rewritings(&kept("example-07"));
    assert_eq!(found.len(), 3);
    assert!(found.iter().all(|(_, r)| r == "r(v0,v0) b(v0)"));
    assert_eq!(told("example-07"), ["r(v0,v1) r(v1,v2) r(v2,v0)"]);
}

#[test]
fn example_8_four_choices_each_the_same() {
    let found = rewritings(&kept("example-08"));
    let expected: Vec<(u64, String)> = [4, 5, 7, 8]
        .map(|number| (number, "twin(v0,v1)".to_string()))
        .into();
    assert_eq!(found, expected);
    assert_eq!(told("example-08"), ["m(v0,v1) m(v0,v2)", "twin(v0,v1)"]);
}

#[test]
fn example_9_both_pieces_at_once() {
    assert_eq!(told("example-09"), ["p(v0,v1) p(v1,v0)", "s(v0)"]);
}

#[test]
fn example_10_sixty_four_members() {
    let Outcome::Complete { members, explored } = common::outcome(&kept("example-10-complete"))
    else {
        panic!("refused");
    };
    assert_eq!((members.len(), explored), (64, 64));
    assert_eq!(refused(&kept("example-10-refused-10")), (10, 63));
    assert_eq!(refused(&kept("example-10-refused-9")).0, 9);
}

#[test]
fn example_11_a_transitive_rule_is_refused() {
    assert_eq!(refused(&kept("example-11")), (8, 8));
}

/// The bytes of the printed book, as the paper gives them.
fn the_printed_book() -> Vec<u8> {
    let words: [u16; 9] = [3, 0, 1, 2, 10, 18, 21, 38, 48];
    let mut bytes: Vec<u8> = words.iter().flat_map(|word| word.to_le_bytes()).collect();
    bytes.extend([1, 1, 2, 1, 2]);
    bytes.extend([0, 0, 255, 255, 255, 1, 1, 255, 255, 255]);
    bytes.extend([2, 0, 1, 255, 255, 1, 0, 255, 255, 255]);
    bytes.extend([2, 1, 0, 255, 255]);
    bytes
}

#[test]
fn the_printed_book_prints_as_the_paper_says() {
    let mut bytes = the_printed_book();
    let expected = "members 2 explored 2\nr1(v0) r2(v1,v0)\nr0(v0)\n";
    assert_eq!(print(&bytes), expected);
    bytes[8] = 1;
    assert_eq!(print(&bytes), "refused 10 at 1\n");
}

#[test]
fn the_printed_book_asked_by_name() {
    let alone = "members 1 explored 1\na(v0,c1) r1(v0) r2(v1,v0)\n";
    assert_eq!(printed(&kept("printed-which")), alone);
    let two = "members 2 explored 2\na(v0) r1(v1) r2(v0,v1)\na(v0) r0(v0)\n";
    assert_eq!(printed(&kept("printed-which-actor")), two);
}

#[test]
fn an_answer_record_stands_before_the_atoms_and_five_is_added_to_the_total() {
    let mut bytes = the_printed_book();
    bytes[16] += 5;
    bytes.splice(38..38, [255, 1, 0, 255, 255]);
    let expected = "members 1 explored 1\na(v0,v1) r1(v1) r2(v0,v1)\n";
    assert_eq!(print(&bytes), expected);
}

#[test]
fn a_thing_simply_known() {
    assert_eq!(printed(&kept("known")), "members 1 explored 2\nalways\n");
    assert_eq!(printed(&kept("known-allow-1")), "refused 10 at 1\n");
    assert_eq!(
        printed(&kept("known-chain")),
        "members 1 explored 5\nalways\n"
    );
    let part = "members 1 explored 2\nr1(v0,v1)\n";
    assert_eq!(printed(&kept("known-part")), part);
}

#[test]
fn a_thing_simply_known_asked_by_name() {
    let three = "members 3 explored 3\na(v0) r0(v0)\na(c0) always\na(v0) r1(v0)\n";
    assert_eq!(printed(&kept("known-which")), three);
    assert_eq!(told("known-which")[1], "a(Vault) : always");
    let alone = "members 1 explored 1\na(v0) r0(v0)\n";
    assert_eq!(printed(&kept("known-which-unknown")), alone);
}

#[test]
fn what_is_simply_known_holds_in_the_empty_ledger() {
    let checked = |name: &str, way: Way| {
        let source = kept(name);
        check(&source.book, &members_by(&source, way), &[])
    };
    for name in ["known", "known-chain"] {
        let found = checked(name, Way::Right);
        assert_eq!((found.yes, found.no, found.disagreed.len()), (1, 0, 0));
        assert_eq!(checked(name, Way::FactsUnused).disagreed, [vec![]]);
    }
    let found = checked("known-part", Way::Right);
    assert_eq!((found.yes, found.no, found.disagreed.len()), (0, 1, 0));
    // The vault, and one thing more that is asked about.
    let found = checked("known-which", Way::Right);
    assert_eq!((found.yes, found.no, found.disagreed.len()), (1, 1, 0));
    let lost = checked("known-which", Way::FactsUnused).disagreed;
    assert_eq!(lost, [vec![Term::Constant(0)]]);
    let found = checked("known-which-unknown", Way::Right);
    assert_eq!((found.yes, found.no, found.disagreed.len()), (0, 1, 0));
}

#[test]
fn the_empty_ledger_is_among_those_that_are_asked() {
    let mut random = Random::new(30);
    for name in ["known", "known-which", "printed", "example-10-complete"] {
        let source = kept(name);
        let members = members_by(&source, Way::Right);
        let asked = ledgers(&source.book, &members, &mut random);
        assert!(asked.iter().any(|ledger| ledger.is_empty()), "{name}");
        assert!(asked.iter().any(|ledger| !ledger.is_empty()), "{name}");
    }
}

/// The union of a kept book.
fn union_of(name: &str) -> Vec<u8> {
    let mut output = vec![99; OUTPUT_ROOM];
    let answer = run(&book::write(&kept(name).book), &mut output);
    assert_eq!(answer.number, 0);
    output.truncate(answer.place);
    output
}

#[test]
fn a_member_without_atoms_is_written_with_count_0() {
    assert_eq!(union_of("known"), [1, 0, 2, 0, 8, 0, 9, 0, 0]);
    let union = union_of("known-which");
    assert_eq!(union[..8], [3, 0, 3, 0, 8, 0, 36, 0]);
    assert_eq!(
        union[8..19],
        [1, 255, 0, 255, 255, 255, 0, 0, 255, 255, 255]
    );
    assert_eq!(union[19..25], [0, 255, 128, 255, 255, 255]);
    assert_eq!(union[25..], [1, 255, 0, 255, 255, 255, 1, 0, 255, 255, 255]);
}

#[test]
fn members_without_atoms_fill_the_union_as_others_do() {
    let books = second::limits::books();
    let bytes = |name: &str| &books.iter().find(|(n, _)| n == name).unwrap().1;
    let text = print(bytes("64 members, of them 49 without atoms"));
    assert!(text.starts_with("members 64 explored 64\na(v0,v1) r0(v0) r0(v1)\n"));
    let always = text.lines().filter(|line| line.ends_with(" always"));
    assert_eq!(always.count(), 49);
    assert!(print(bytes("9 among members without atoms")).starts_with("refused 9 at "));
    let text = print(bytes("32 known, answered"));
    assert!(text.starts_with("members 33 explored 33\na(v0) r0(v0)\na(c0) always\n"));
    assert_eq!(print(bytes("32 known")), "members 1 explored 2\nalways\n");
    assert_eq!(print(bytes("known, L 2")), "members 1 explored 2\nalways\n");
}

#[test]
fn the_printed_book_is_kept_in_books() {
    assert_eq!(book::write(&kept("printed").book), the_printed_book());
    assert_eq!(printed(&kept("printed-allow-1")), "refused 10 at 1\n");
}

#[test]
fn only_the_first_65536_bytes_are_read() {
    let mut bytes = the_printed_book();
    bytes.resize(65_536, 0);
    let short = print(&bytes);
    bytes.resize(200_000, 1);
    assert_eq!(print(&bytes), short);
    assert_eq!(short, "refused 4 at 0\n");
}
