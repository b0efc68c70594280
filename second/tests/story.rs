//! The light ledger: what the old way, one piece at a time, loses; and asked by name, which
//! sheets.

mod common;

use common::{kept, members_by, told_by};
use second::cover::holds;
use second::ledger::{check, rows, Checked, Row};
use second::source::Source;
use second::term::{Atom, Term};
use second::way::Way;

/// The three watercolours: crated, hung past their allowance, and nothing else written.
const THINGS: [&str; 3] = ["The Mill at Dusk", "Two Herons", "A Study of Sky"];

/// The ledger's three facts about one sheet.
fn facts(source: &Source, sheet: usize) -> Vec<Atom> {
    let fact = |name: &str| {
        let relation = source.relations.iter().position(|r| r == name);
        Atom::new(relation.unwrap(), vec![Term::Constant(sheet)])
    };
    ["crated", "overhung", "watercolour"].map(fact).into()
}

/// The three sheets as named things.
fn sheets() -> Vec<Term> {
    (0..THINGS.len()).map(Term::Constant).collect()
}

/// The facts about all three.
fn all_facts(source: &Source) -> Vec<Atom> {
    let sheets = 0..THINGS.len();
    sheets.flat_map(|sheet| facts(source, sheet)).collect()
}

/// What is found where a yes is agreed on.
fn agreed() -> Checked {
    Checked {
        yes: 1,
        ..Checked::default()
    }
}

#[test]
fn the_old_way_loses_two_members() {
    let source = kept("light-ledger");
    let whole = told_by(&source, Way::Right);
    let old = told_by(&source, Way::OnePiece);
    assert_eq!(whole.len(), 6);
    assert_eq!(old, whole[..4]);
    assert_eq!(
        whole[4..],
        [
            "overhung(v0) watercolour(v0) lent(v0)",
            "overhung(v0) watercolour(v0) crated(v0)"
        ]
    );
}

#[test]
fn each_of_the_three_watercolours_is_lost() {
    let source = kept("light-ledger");
    let whole = members_by(&source, Way::Right);
    let old = members_by(&source, Way::OnePiece);
    for (sheet, name) in THINGS.iter().enumerate() {
        let ledger = facts(&source, sheet);
        assert_eq!(check(&source.book, &whole, &ledger), agreed());
        assert_eq!(check(&source.book, &old, &ledger).disagreed, [vec![]]);
        assert!(!old.iter().any(|m| holds(m, &[], &ledger)), "{name}");
    }
    let all = all_facts(&source);
    assert_eq!(check(&source.book, &old, &all).disagreed, [vec![]]);
}

#[test]
fn asked_by_name_each_of_the_three_is_a_row() {
    let source = kept("light-ledger-which");
    let whole = members_by(&source, Way::Right);
    let rows_of = |member| rows(member, &all_facts(&source), &sheets());
    let found: Vec<Row> = whole.iter().flat_map(rows_of).collect();
    assert_eq!(
        found,
        sheets().into_iter().map(|s| vec![s]).collect::<Vec<Row>>()
    );
    let checked = check(&source.book, &whole, &all_facts(&source));
    assert_eq!((checked.yes, checked.disagreed.len()), (3, 0));
    // One thing more is asked about, which stands nowhere.
    assert_eq!((checked.no, checked.undecided), (1, 0));
}

#[test]
fn asked_by_name_the_old_way_loses_all_three_rows() {
    for name in ["light-ledger-which", "light-ledger-which-pairs"] {
        let source = kept(name);
        let (whole, old) = (
            told_by(&source, Way::Right),
            told_by(&source, Way::OnePiece),
        );
        assert_eq!((whole.len(), &old[..]), (6, &whole[..4]), "{name}");
        let old = members_by(&source, Way::OnePiece);
        let checked = check(&source.book, &old, &all_facts(&source));
        assert_eq!((checked.yes, checked.disagreed.len()), (0, 3), "{name}");
    }
}

#[test]
fn asked_by_name_for_both_ends_they_are_one_sheet() {
    let source = kept("light-ledger-which-pairs");
    let whole = told_by(&source, Way::Right);
    assert_eq!(
        whole[4..],
        [
            "a(v0,v0) : overhung(v0) watercolour(v0) lent(v0)",
            "a(v0,v0) : overhung(v0) watercolour(v0) crated(v0)"
        ]
    );
    let members = members_by(&source, Way::Right);
    let checked = check(&source.book, &members, &all_facts(&source));
    assert_eq!((checked.yes, checked.no), (3, 4 * 4 - 3));
}

#[test]
fn the_impostors_lose_them_too() {
    for (name, lost) in [("light-ledger", 1), ("light-ledger-which", 3)] {
        let source = kept(name);
        for way in [Way::FirstOnly, Way::QuestionOnly] {
            let members = members_by(&source, way);
            let checked = check(&source.book, &members, &all_facts(&source));
            assert_eq!(checked.disagreed.len(), lost, "{name} {way:?}");
        }
    }
}

#[test]
fn the_old_way_loses_nothing_where_there_is_one_piece() {
    for name in ["example-08", "printed", "001-example-1", "002-twins"] {
        let source = kept(name);
        let whole = told_by(&source, Way::Right);
        assert_eq!(told_by(&source, Way::OnePiece), whole, "{name}");
    }
}
