//! The generators of books and pairs, the wrong shortcuts and the ledgers.

use second::copying::{copy_by, BOOK_ROOM};
use second::cover::holds;
use second::print::{print, print_by};
use second::random::Random;
use second::seen::{Behaviour, Seen, BEHAVIOURS};
use second::term::Term;
use second::way::{Way, WRONG_WAYS};
use second::width::WIDTHS;
use second::{generate, kinds, ledger, limits, pairs};
use std::process::Command;

/// The first books of a seed.
fn generated(seed: u64, many: usize) -> Vec<Vec<u8>> {
    let mut random = Random::new(seed);
    (0..many).map(|_| generate::next(&mut random)).collect()
}

/// A number made of all bytes (FNV-1a).
fn digest(books: &[Vec<u8>]) -> u64 {
    let start = 0xcbf2_9ce4_8422_2325;
    books.iter().flatten().fold(start, |digest: u64, &byte| {
        (digest ^ byte as u64).wrapping_mul(0x100_0000_01b3)
    })
}

#[test]
fn the_same_seed_gives_the_same_books() {
    assert_eq!(generated(1, 300), generated(1, 300));
    assert_ne!(generated(1, 300), generated(2, 300));
}

#[test]
fn the_same_books_on_every_machine() {
    let books = generated(1, 1000);
    assert_eq!(digest(&books), DIGEST, "{:#x}", digest(&books));
}

/// The digest of the first thousand books of seed 1.
const DIGEST: u64 = 0xbbd0_6413_f7cc_06a4;

/// Prints a book and copies it into both forms, counting what is met.
fn meet(bytes: &[u8], seen: &mut Seen) {
    print_by(bytes, Way::Right, seen);
    for wanted in WIDTHS {
        copy_by(bytes, &mut [0; BOOK_ROOM], wanted, seen);
    }
}

#[test]
fn the_books_made_on_purpose_meet_every_behaviour() {
    let mut seen = Seen::default();
    for (_, bytes) in limits::books() {
        meet(&bytes, &mut seen);
    }
    for entry in std::fs::read_dir(concat!(env!("CARGO_MANIFEST_DIR"), "/../books")).unwrap() {
        let path = entry.unwrap().path();
        if path.extension().is_some_and(|e| e == "book") {
            meet(&std::fs::read(path).unwrap(), &mut seen);
        }
    }
    let small = [Behaviour::OutputTooSmall, Behaviour::CopyTooSmall];
    let small = BEHAVIOURS.iter().filter(|(b, _)| small.contains(b));
    let small: Vec<&str> = small.map(|(_, words)| *words).collect();
    assert_eq!(seen.missing(), small);
}

#[test]
fn generated_books_are_of_every_kind() {
    let mut seen = Seen::default();
    for bytes in generated(3, 4000) {
        meet(&bytes, &mut seen);
    }
    let missing = seen.missing();
    assert!(missing.len() < BEHAVIOURS.len() / 8, "{missing:?}");
    for behaviour in [
        Behaviour::Refusal8,
        Behaviour::Refusal9,
        Behaviour::Refusal10,
        Behaviour::UnboundFirst,
        Behaviour::UnboundLater,
        Behaviour::AnswerRelation,
        Behaviour::AnswerNoneUsed,
        Behaviour::AnswerGap,
        Behaviour::AnswerFour,
        Behaviour::UnknownAnswerAlone,
        Behaviour::AnswerConstantArises,
        Behaviour::AnswersJoined,
        Behaviour::KeptByAnswer,
        Behaviour::CompleteAnswered,
        Behaviour::FactMet,
        Behaviour::FactMetOthersLeft,
        Behaviour::FactMetAnswered,
        Behaviour::UnknownAnswerOfFact,
        Behaviour::CoveredByAlways,
        Behaviour::CoveredAlways,
        Behaviour::KeptFromAlways,
        Behaviour::RemovedByAlways,
        Behaviour::RemovedByAlwaysSome,
        Behaviour::RemovedByAlwaysNone,
        Behaviour::Refusal10Always,
        Behaviour::CompleteAlways,
        Behaviour::CompleteAlwaysAmong,
        Behaviour::CompleteAlwaysSeveral,
        Behaviour::UnderTwenty,
        Behaviour::TenthWord,
        Behaviour::SevenPlaces,
        Behaviour::VariableOver47,
        Behaviour::AnswerFifth,
        Behaviour::AnswerSixth,
        Behaviour::NoOldFormPlaces,
        Behaviour::NoOldFormVariable,
        Behaviour::CopiedToNew,
        Behaviour::CopiedToOld,
        Behaviour::CompleteNew,
        Behaviour::CompleteNewAnswered,
        Behaviour::Refusal8New,
        Behaviour::Refusal10New,
        Behaviour::SixPlaces,
    ] {
        assert!(seen.count(behaviour) > 0, "{behaviour:?}");
    }
}

#[test]
fn every_wrong_shortcut_is_caught() {
    let mut made = limits::books();
    made.retain(|(name, _)| !name.starts_with("1,000") && !name.starts_with("390,624"));
    let mut books: Vec<Vec<u8>> = made.into_iter().map(|(_, bytes)| bytes).collect();
    books.extend(generated(4, 2000));
    for (word, way) in WRONG_WAYS {
        let caught = books
            .iter()
            .any(|bytes| print_by(bytes, *way, &mut Seen::default()) != print(bytes));
        assert!(caught, "{word}");
    }
}

#[test]
fn pairs_for_the_desk_are_of_every_kind() {
    let mut random = Random::new(9);
    let pairs: Vec<pairs::Pair> = (0..4000).map(|_| pairs::next(&mut random)).collect();
    let mut kinds = kinds::Kinds::default();
    pairs.iter().for_each(|pair| kinds.count(pair));
    assert!(
        kinds.counts.iter().all(|&count| count > 5),
        "{}",
        kinds.table()
    );
    assert_eq!(kinds.counts[..7].iter().sum::<usize>(), pairs.len());
}

/// Runs a command of this package; whether it succeeded, and what it wrote.
fn command(path: &str, words: &[&str]) -> (bool, String) {
    let ended = Command::new(path).args(words).output().unwrap();
    let text = String::from_utf8_lossy(&ended.stdout).into_owned();
    (ended.status.success(), text)
}

#[test]
fn ledgers_agree_and_the_old_way_does_not() {
    let ledgers = env!("CARGO_BIN_EXE_ledgers");
    let (fine, text) = command(ledgers, &["--count", "1000"]);
    assert!(fine && text.contains("disagreed 0"), "{text}");
    for way in [
        "--old-way",
        "--answer-not-left",
        "--answer-not-sent",
        "--facts-unused",
        "--always-for-all",
    ] {
        let (fine, text) = command(ledgers, &["--count", "300", way]);
        assert!(!fine && text.contains("DISAGREED"), "{way}: {text}");
    }
}

#[test]
fn rows_found_place_by_place_are_those_asked_one_by_one() {
    let mut random = Random::new(24);
    let things: Vec<Term> = (0..4).map(Term::Constant).collect();
    let mut found = 0;
    while found < 500 {
        let book = generate::sound(&mut random);
        let question = book.question.clone();
        let (members, places) = ([question.clone()], question.answer.len());
        for facts in ledger::ledgers(&book, &members, &mut random) {
            let every = (0..4usize.pow(places as u32)).map(|number| {
                let place = |i: usize| things[number / 4usize.pow(i as u32) % 4];
                (0..places).map(place).collect::<ledger::Row>()
            });
            let one_by_one = every.filter(|row| holds(&question, row, &facts)).collect();
            let by_place = ledger::rows(&question, &facts, &things);
            found += by_place.len() * (places > 1) as usize;
            assert_eq!(by_place, one_by_one);
        }
    }
}
