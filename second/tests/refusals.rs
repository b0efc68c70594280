//! Each refusal at several places, and two that compete.

mod common;

use common::{kept, read};
use second::book;
use second::run::{run, Answer};
use second::union::{largest, OUTPUT_ROOM};
use second::way::Way;
use second::width::Width;

/// A book with every kind of part: 2 relations (1 and 2 places), 2 constants, 2 rules.
fn sample() -> Vec<u8> {
    let text = "relation p 1\nrelation q 2\nconstant a b\n\
        rule p(x) -> q(x,y)\nrule p(x) p(y) -> p(x) q(y,a)\n\
        question p(x) q(x,b)\nallow 9\n";
    book::write(&read(text).book)
}

/// The sample asked for x, with a constant beside it.
fn answered_sample() -> Vec<u8> {
    let text = "relation p 1\nrelation q 2\nconstant a b\n\
        rule p(x) -> q(x,y)\nrule p(x) p(y) -> p(x) q(y,a)\n\
        question a(x,b) : p(x) q(x,b)\nallow 9\n";
    book::write(&read(text).book)
}

/// The bytes of an atom in the old form.
const ATOM: usize = 5;

/// Offsets in the sample, and where the question's atoms stand in the answered one.
const RELATIONS: usize = 18;
const RULE_1: usize = 20;
const RULE_2: usize = 32;
const QUESTION: usize = 54;
const TOTAL: usize = 64;
const ASKED: usize = QUESTION + ATOM;

/// The answer for these bytes; at a refusal no output byte may change.
fn answer(bytes: &[u8]) -> (usize, usize) {
    let mut output = vec![99; OUTPUT_ROOM + 10];
    let Answer { number, place } = run(bytes, &mut output);
    let touched = if number == 0 { place } else { 0 };
    assert!(output[touched..].iter().all(|&byte| byte == 99));
    (number, place)
}

/// The answer for the sample with some bytes changed.
fn changed(changes: &[(usize, u8)]) -> (usize, usize) {
    answer(&with(sample(), changes))
}

/// The answer for the answered sample with some bytes changed.
fn changed_answered(changes: &[(usize, u8)]) -> (usize, usize) {
    answer(&with(answered_sample(), changes))
}

/// A book with some bytes changed.
fn with(mut bytes: Vec<u8>, changes: &[(usize, u8)]) -> Vec<u8> {
    changes.iter().for_each(|&(at, value)| bytes[at] = value);
    bytes
}

/// The sample with a header word changed.
fn word(word: usize, value: u16) -> (usize, usize) {
    let [low, high] = value.to_le_bytes();
    changed(&[(2 * word, low), (2 * word + 1, high)])
}

/// The sample with bytes put before the question and the offsets moved along.
fn before_question(rules: u8, more: &[u8]) -> (usize, usize) {
    let mut bytes = sample();
    bytes[4] = rules;
    bytes.splice(QUESTION..QUESTION, more.iter().copied());
    bytes[14] += more.len() as u8;
    bytes[16] += more.len() as u8;
    answer(&bytes)
}

#[test]
fn the_sample_is_sound() {
    assert_eq!(sample().len(), TOTAL);
    assert_eq!(answer(&sample()).0, 0);
    assert_eq!(sample()[RULE_2..RULE_2 + 2], [2, 2]);
}

#[test]
fn refusal_1_wins_over_everything() {
    for bytes in [sample(), vec![], vec![0; 18], vec![255; 40]] {
        for room in [0, 1, 8, OUTPUT_ROOM - 1] {
            let mut output = vec![99; room];
            let Answer { number, place } = run(&bytes, &mut output);
            assert_eq!((number, place), (1, 0));
            assert!(output.iter().all(|&byte| byte == 99));
        }
    }
    let mut output = vec![99; OUTPUT_ROOM];
    assert_eq!(run(&sample(), &mut output).number, 0);
}

#[test]
fn refusal_1_is_the_same_for_books_without_an_answer_record() {
    let largest_old = largest(Width::Four, true);
    assert_eq!((OUTPUT_ROOM, largest_old), (8 + 64 * 64, 8 + 64 * 46));
    assert_eq!(OUTPUT_ROOM, largest(Width::Six, true));
    for bytes in [sample(), answered_sample()] {
        for (room, number) in [(largest_old, 1), (OUTPUT_ROOM - 1, 1), (OUTPUT_ROOM, 0)] {
            let mut output = vec![99; room];
            assert_eq!(run(&bytes, &mut output).number, number, "{room}");
            assert_eq!(output.iter().all(|&byte| byte == 99), number == 1);
        }
    }
}

#[test]
fn refusal_2_under_18_bytes() {
    for length in 0..18 {
        assert_eq!(answer(&sample()[..length]), (2, 0));
    }
    assert_eq!(answer(&sample()[..18]), (4, 0));
}

#[test]
fn refusal_3_outside_the_table() {
    for (which, value) in [
        (0, 0),
        (0, 65),
        (1, 128),
        (2, 33),
        (3, 0),
        (3, 9),
        (4, 0),
        (4, 1001),
        (0, 65_535),
        (4, 65_535),
    ] {
        assert_eq!(word(which, value), (3, 0), "{which} {value}");
    }
    for (which, value) in [(1, 127), (4, 1), (4, 1000)] {
        assert_ne!(word(which, value).0, 3, "{which} {value}");
    }
}

#[test]
fn refusal_4_offsets_and_total() {
    for (which, value) in [
        (5, 17),
        (5, 19),
        (6, 19),
        (6, 21),
        (7, 19),
        (7, 53),
        (7, 55),
        (8, 63),
        (8, 65),
        (8, 0),
    ] {
        assert_eq!(word(which, value), (4, 0), "{which} {value}");
    }
    let mut bytes = sample();
    bytes.push(255);
    assert_eq!(answer(&bytes), (4, 0));
    assert_eq!(answer(&sample()[..TOTAL - 1]), (4, 0));
}

#[test]
fn refusal_4_sums_are_not_cut() {
    // The question's offset 65,535 and two atoms: 65,545, which is 9 when cut; with an
    // answer record 14.
    assert_eq!(changed(&[(14, 255), (15, 255), (16, 9), (17, 0)]), (4, 0));
    assert_eq!(changed(&[(14, 255), (15, 255), (16, 14), (17, 0)]), (4, 0));
}

#[test]
fn refusal_4_the_total_is_neither_with_nor_without_an_answer_record() {
    assert_eq!(answer(&answered_sample()).0, 0);
    let total = TOTAL + ATOM;
    assert_eq!(answered_sample().len(), total);
    // Each of these is also the book's length.
    for length in [
        TOTAL - 5,
        TOTAL - 1,
        TOTAL + 1,
        TOTAL + 4,
        TOTAL + 6,
        TOTAL + 10,
    ] {
        for mut bytes in [sample(), answered_sample()] {
            bytes.resize(length, 255);
            bytes[16] = length as u8;
            assert_eq!(answer(&bytes), (4, 0), "{length}");
        }
    }
    // Announced and not there, there and not announced: the length is another.
    assert_eq!(changed(&[(16, total as u8)]), (4, 0));
    assert_eq!(changed_answered(&[(16, TOTAL as u8)]), (4, 0));
}

#[test]
fn the_total_alone_announces_an_answer_record() {
    // Five bytes more at the end: the first atom is taken for the record.
    let mut bytes = sample();
    bytes.extend([0, 0, 255, 255, 255]);
    bytes[16] += 5;
    assert_eq!(answer(&bytes), (7, QUESTION));
    // One atom fewer said: the same.
    assert_eq!(changed(&[(6, 1)]), (7, QUESTION));
    // Not announced, the record is an atom of no relation.
    assert_eq!(changed_answered(&[(6, 3)]), (7, QUESTION));
    let mut bytes = answered_sample();
    bytes.truncate(TOTAL);
    bytes[16] -= 5;
    assert_eq!(answer(&bytes), (7, QUESTION));
}

#[test]
fn refusal_5_places() {
    for places in [0, 5, 128, 255] {
        assert_eq!(changed(&[(RELATIONS, places)]), (5, RELATIONS));
        assert_eq!(changed(&[(RELATIONS + 1, places)]), (5, RELATIONS + 1));
    }
    let two = changed(&[(RELATIONS + 1, 0), (RELATIONS, 9)]);
    assert_eq!(two, (5, RELATIONS));
}

#[test]
fn refusal_6_counts() {
    for count in [5, 128, 255] {
        for at in [RULE_1, RULE_1 + 1] {
            assert_eq!(changed(&[(at, count)]), (6, RULE_1));
        }
        for at in [RULE_2, RULE_2 + 1] {
            assert_eq!(changed(&[(at, count)]), (6, RULE_2));
        }
    }
    for rule in [RULE_1, RULE_2] {
        assert_eq!(changed(&[(rule + 1, 0)]), (6, rule));
        assert_eq!(changed(&[(rule, 0), (rule + 1, 0)]), (6, rule));
    }
}

#[test]
fn refusal_6_no_longer_for_an_empty_body() {
    // The first rule without its body's atom: the second one's first byte is another.
    let mut bytes = sample();
    bytes[RULE_1] = 0;
    bytes.drain(RULE_1 + 2..RULE_1 + 2 + ATOM);
    bytes[14] -= ATOM as u8;
    bytes[16] -= ATOM as u8;
    assert_eq!(answer(&bytes).0, 0);
    bytes[RULE_2 - ATOM + 1] = 0;
    assert_eq!(answer(&bytes), (6, RULE_2 - ATOM));
    // With the atom there it is the head, and what follows is no rule.
    assert_eq!(changed(&[(RULE_1, 0)]), (6, RULE_1 + 2 + ATOM));
    // The second rule ends after two atoms; the other two are too many.
    let early = RULE_2 + 2 + 2 * ATOM;
    assert_eq!(changed(&[(RULE_2, 0)]), (6, early));
    // All four are its head.
    assert_eq!(changed(&[(RULE_2, 0), (RULE_2 + 1, 4)]).0, 0);
}

#[test]
fn refusal_6_a_rule_with_an_empty_body_runs_past() {
    let fact = [0, 1, 0, 0, 255, 255, 255];
    assert_eq!(before_question(3, &fact).0, 0);
    for length in 0..fact.len() {
        assert_eq!(before_question(3, &fact[..length]), (6, QUESTION));
    }
    assert_eq!(
        before_question(3, &[0, 2, 0, 0, 255, 255, 255]),
        (6, QUESTION)
    );
    assert_eq!(before_question(4, &fact), (6, QUESTION + fact.len()));
    assert_eq!(before_question(2, &fact), (6, QUESTION));
    // Its atoms are judged as any head's.
    assert_eq!(
        before_question(3, &[0, 1, 2, 0, 255, 255, 255]),
        (7, QUESTION + 2)
    );
    assert_eq!(
        before_question(3, &[0, 1, 0, 32, 255, 255, 255]),
        (7, QUESTION + 3)
    );
}

#[test]
fn an_empty_head_and_an_empty_question_are_refused_as_ever() {
    assert_eq!(
        before_question(3, &[1, 0, 0, 0, 255, 255, 255]),
        (6, QUESTION)
    );
    assert_eq!(before_question(3, &[0, 0]), (6, QUESTION));
    assert_eq!(word(3, 0), (3, 0));
}

#[test]
fn refusal_6_a_rule_runs_past() {
    assert_eq!(changed(&[(RULE_2, 3)]), (6, RULE_2));
    assert_eq!(before_question(3, &[]), (6, QUESTION));
    assert_eq!(before_question(3, &[1]), (6, QUESTION));
    assert_eq!(before_question(3, &[1, 1]), (6, QUESTION));
    assert_eq!(
        before_question(3, &[1, 1, 0, 0, 255, 255, 255]),
        (6, QUESTION)
    );
    let whole = [1, 1, 0, 0, 255, 255, 255, 0, 0, 255, 255, 255];
    assert_eq!(before_question(3, &whole).0, 0);
    assert_eq!(before_question(4, &whole), (6, QUESTION + 12));
}

#[test]
fn refusal_6_the_rules_end_early() {
    assert_eq!(word(2, 1), (6, RULE_2));
    assert_eq!(word(2, 0), (6, RULE_1));
    assert_eq!(before_question(2, &[1]), (6, QUESTION));
    assert_eq!(before_question(2, &[1, 1, 0]), (6, QUESTION));
}

#[test]
fn refusal_7_relation_numbers() {
    let body = RULE_1 + 2;
    for at in [body, body + ATOM, RULE_2 + 2, QUESTION, QUESTION + ATOM] {
        for relation in [2, 64, 255] {
            assert_eq!(changed(&[(at, relation)]), (7, at));
        }
    }
    // Only the relation byte of such an atom is judged, and the next fault is later.
    assert_eq!(changed(&[(body, 2), (body + 1, 77)]), (7, body));
}

#[test]
fn refusal_7_places() {
    let body = RULE_1 + 2;
    for value in [32, 127, 130, 254, 255] {
        assert_eq!(changed(&[(body + 1, value)]), (7, body + 1));
        assert_eq!(changed(&[(QUESTION + 7, value)]), (7, QUESTION + 7));
    }
    for value in [0, 31, 128, 129] {
        assert_ne!(changed(&[(body + 1, value)]).0, 7);
        assert_eq!(changed(&[(body + 2, value)]), (7, body + 2));
        assert_eq!(changed(&[(QUESTION + 9, value)]), (7, QUESTION + 9));
    }
    let last = changed(&[(QUESTION + 9, 0), (QUESTION + 2, 0), (body + 4, 0)]);
    assert_eq!(last, (7, body + 4));
}

#[test]
fn refusal_7_the_answer_records_relation_byte() {
    for relation in [0, 1, 2, 63, 64, 128, 254] {
        assert_eq!(changed_answered(&[(QUESTION, relation)]), (7, QUESTION));
        let with_places = [(QUESTION, relation), (QUESTION + 1, 77)];
        assert_eq!(changed_answered(&with_places), (7, QUESTION));
    }
}

#[test]
fn refusal_7_the_answer_records_places() {
    for value in [32, 127, 130, 254] {
        for place in [QUESTION + 1, QUESTION + 2, QUESTION + 3] {
            assert_eq!(changed_answered(&[(place, value)]), (7, place));
        }
    }
    // None used; and none used though later ones are.
    let none = [(QUESTION + 1, 255), (QUESTION + 2, 255)];
    assert_eq!(changed_answered(&none), (7, QUESTION + 1));
    assert_eq!(changed_answered(&none[..1]), (7, QUESTION + 1));
    // After an unused place the first used one, whatever it holds.
    for value in [0, 31, 77, 128, 254] {
        assert_eq!(
            changed_answered(&[(QUESTION + 4, value)]),
            (7, QUESTION + 4)
        );
    }
    let two = [(QUESTION + 2, 255), (QUESTION + 3, 0), (QUESTION + 4, 0)];
    assert_eq!(changed_answered(&two), (7, QUESTION + 3));
    // All four used, and one.
    let four = [(QUESTION + 3, 128), (QUESTION + 4, 0)];
    assert_eq!(changed_answered(&four).0, 0);
    assert_eq!(changed_answered(&[(QUESTION + 2, 255)]).0, 0);
}

#[test]
fn refusal_7_rules_then_the_answer_record_then_the_atoms() {
    let (rule, place, atom) = ((RULE_2 + 3, 77), (QUESTION + 2, 77), (ASKED, 9));
    assert_eq!(changed_answered(&[rule, place, atom]), (7, RULE_2 + 3));
    assert_eq!(changed_answered(&[place, atom]), (7, QUESTION + 2));
    assert_eq!(changed_answered(&[atom]), (7, ASKED));
    assert_eq!(changed_answered(&[(ASKED + 1, 32)]), (7, ASKED + 1));
}

#[test]
fn refusal_11_an_answer_variable_in_no_question_atom() {
    for v in [1, 2, 31] {
        assert_eq!(changed_answered(&[(QUESTION + 1, v)]), (11, QUESTION + 1));
        assert_eq!(changed_answered(&[(QUESTION + 2, v)]), (11, QUESTION + 2));
        assert_eq!(changed_answered(&[(QUESTION + 3, v)]), (11, QUESTION + 3));
    }
    // The earliest place, also of one variable twice.
    let two = [(QUESTION + 2, 9), (QUESTION + 3, 9), (QUESTION + 4, 8)];
    assert_eq!(changed_answered(&two), (11, QUESTION + 2));
    // It stands in another atom, and the first place is fine.
    assert_eq!(changed_answered(&[(ASKED + 1, 5)]).0, 0);
    let nowhere = [(ASKED + 1, 5), (ASKED + ATOM + 1, 5)];
    assert_eq!(changed_answered(&nowhere), (11, QUESTION + 1));
    // A rule's variable of that number is another.
    assert_eq!(changed_answered(&[(QUESTION + 1, 1)]), (11, QUESTION + 1));
    // Constants stand for themselves.
    assert_eq!(changed_answered(&[(QUESTION + 1, 128)]).0, 0);
}

#[test]
fn refusal_11_comes_after_7_and_before_the_run() {
    let unbound = (QUESTION + 1, 9);
    assert_eq!(changed_answered(&[unbound, (ASKED + 2, 0)]), (7, ASKED + 2));
    assert_eq!(
        changed_answered(&[unbound, (RULE_1 + 3, 77)]),
        (7, RULE_1 + 3)
    );
    assert_eq!(
        changed_answered(&[unbound, (QUESTION + 2, 77)]),
        (7, QUESTION + 2)
    );
    assert_eq!(changed_answered(&[unbound, (RULE_2 + 1, 0)]), (6, RULE_2));
    for (name, number) in [("001-transitive-which", 8), ("003-example-7-which", 9)] {
        let bytes = book::write(&kept(name).book);
        assert_eq!(answer(&bytes).0, number);
        let at = bytes[14] as usize + 256 * bytes[15] as usize;
        assert_eq!(answer(&with(bytes, &[(at + 2, 31)])), (11, at + 2));
    }
}

#[test]
fn the_least_number_wins_and_then_the_earliest_place() {
    let bad_place = (RULE_1 + 3, 200);
    assert_eq!(changed(&[bad_place]), (7, RULE_1 + 3));
    let no_head = (RULE_2 + 1, 0);
    assert_eq!(changed(&[bad_place, no_head]), (6, RULE_2));
    assert_eq!(changed(&[bad_place, no_head, (19, 0)]), (5, 19));
    assert_eq!(changed(&[bad_place, no_head, (19, 0), (10, 0)]), (4, 0));
    assert_eq!(
        changed(&[bad_place, no_head, (19, 0), (10, 0), (8, 0)]),
        (3, 0)
    );
    assert_eq!(changed(&[(RULE_1 + 1, 0), no_head]), (6, RULE_1));
}

#[test]
fn refusal_7_in_a_rule_after_a_sound_one() {
    // A fault in the second rule's head, and one in the question: the first counts.
    let head = RULE_2 + 2 + 2 * ATOM;
    assert_eq!(changed(&[(head, 9), (QUESTION, 9)]), (7, head));
}

#[test]
fn refusals_8_to_10() {
    assert_eq!(answer(&book::write(&kept("example-11").book)), (8, 8));
    let nine = book::write(&kept("example-10-refused-9").book);
    assert_eq!(answer(&nine), (9, 9));
    let ten = book::write(&kept("example-10-refused-10").book);
    assert_eq!(answer(&ten), (10, 63));
}

#[test]
fn covering_is_tested_before_refusal_8() {
    // Eleven atoms of p, which the question covers, and eleven that it does not.
    let books = second::limits::books();
    let bytes = |name: &str| &books.iter().find(|(n, _)| n == name).unwrap().1;
    assert_eq!(answer(bytes("11 atoms, covered")).0, 0);
    assert_eq!(answer(bytes("11 atoms, uncovered")), (8, 1));
    assert_eq!(answer(bytes("44 variables, covered")).0, 0);
    assert_eq!(answer(bytes("44 variables, uncovered")), (8, 1));
    assert_eq!(answer(bytes("8 before 9")), (8, 14));
}

#[test]
fn the_answer_record_is_no_atom_of_the_eight() {
    let books = second::limits::books();
    let bytes = |name: &str| &books.iter().find(|(n, _)| n == name).unwrap().1;
    assert_eq!(answer(bytes("eight atoms and the record")).0, 0);
    assert_eq!(answer(bytes("nine atoms but for the record")), (8, 1));
    assert_eq!(answer(bytes("11 atoms, answered, covered")).0, 0);
    assert_eq!(answer(bytes("11 atoms, answered, uncovered")), (8, 1));
}

#[test]
fn as_many_explored_as_can_be_allowed() {
    let books = second::limits::books();
    let bytes = |name: &str| &books.iter().find(|(n, _)| n == name).unwrap().1;
    let mut output = vec![0; OUTPUT_ROOM];
    assert_eq!(run(bytes("1,000 explored"), &mut output).number, 0);
    assert_eq!(output[..4], [50, 0, 232, 3]);
    assert_eq!(answer(bytes("1,000 wanted, L 999")), (10, 999));
    let length = |name: &str| answer(bytes(name));
    assert_eq!(length("the largest union"), (0, 2632));
    assert_eq!(length("the largest union, answered"), (0, 2952));
    assert_eq!(length("new: the largest union without answers"), (0, 3656));
    assert_eq!(length("new: the largest union"), (0, OUTPUT_ROOM));
}

#[test]
fn transitive_rules_are_refused_and_never_looped_on() {
    assert_eq!(common::refused(&kept("001-transitive")), (8, 8));
    assert_eq!(common::refused(&kept("001-theorem-1")).0, 8);
    let alone = common::told_by(&kept("001-transitive-boolean"), Way::Right);
    assert_eq!(alone, ["p(v0,v1)"]);
}

#[test]
fn a_complete_answer_writes_the_union_and_no_more() {
    let mut output = vec![99; OUTPUT_ROOM + 3];
    let Answer { number, place } = run(&book::write(&kept("printed").book), &mut output);
    assert_eq!((number, place), (0, 8 + 11 + 6));
    let expected = [
        2, 0, 2, 0, 8, 0, 25, 0, 2, 1, 0, 255, 255, 255, 2, 1, 0, 255, 255, 1, 0, 0, 255, 255, 255,
    ];
    assert_eq!(output[..25], expected);
    assert!(output[25..].iter().all(|&byte| byte == 99));
}

#[test]
fn a_member_carries_its_answer_record_after_the_count_byte() {
    let mut output = vec![99; OUTPUT_ROOM + 3];
    let book = book::write(&kept("printed-which-actor").book);
    let Answer { number, place } = run(&book, &mut output);
    assert_eq!((number, place), (0, 8 + 16 + 11));
    let expected = [
        2, 0, 2, 0, 8, 0, 35, 0, 2, 255, 0, 255, 255, 255, 1, 1, 255, 255, 255, 2, 0, 1, 255, 255,
        1, 255, 0, 255, 255, 255, 0, 0, 255, 255, 255,
    ];
    assert_eq!(output[..35], expected);
    assert!(output[35..].iter().all(|&byte| byte == 99));
}
