//! The worked examples of the source documents, with the results they state. In the books
//! without answer places a named thing stands for an answer variable: it never meets an
//! unknown, which is what the documents ask of answer variables. The books whose names have
//! `which` in them have answer places.

mod common;

use common::{kept, members_by, read, rewritings, told};
use second::book;
use second::chase::{chase, Chased, SMALL};
use second::cover::{covers, equivalent, holds};
use second::explore::{explore, Outcome};
use second::ledger::{check, ledgers, rows, Row};
use second::random::Random;
use second::seen::Seen;
use second::source::Source;
use second::term::{Atom, Question};
use second::way::Way;
use std::collections::BTreeSet;

/// Questions of a source, given in its names.
fn question(source: &Source, name: &str, text: &str) -> Question {
    let lines = common::kept_text(name);
    let declared = lines.lines().filter(|line| !line.starts_with("question"));
    let text = format!(
        "{}\nquestion {text}\n",
        declared.collect::<Vec<_>>().join("\n")
    );
    let other = read(&text);
    assert_eq!(other.relations, source.relations);
    other.book.question
}

/// Whether some member is equivalent to this question.
fn has(name: &str, text: &str) -> bool {
    let source = kept(name);
    let wanted = question(&source, name, text);
    let members = members_by(&source, Way::Right);
    members.iter().any(|member| equivalent(member, &wanted))
}

/// Whether the unions pair off one to one, each member equivalent to its partner.
fn pair_off(a: &[Question], b: &[Question]) -> bool {
    let partners =
        |one: &Question, others: &[Question]| others.iter().filter(|o| equivalent(one, o)).count();
    a.len() == b.len()
        && a.iter().all(|one| partners(one, b) == 1)
        && b.iter().all(|one| partners(one, a) == 1)
}

/// Whether no member covers another.
fn incomparable(members: &[Question]) -> bool {
    let covered = |i: usize, j: usize| i != j && covers(&members[i], &members[j]);
    (0..members.len()).all(|i| (0..members.len()).all(|j| !covered(i, j)))
}

#[test]
fn document_000_example_1() {
    assert_eq!(told("000-example-1").len(), 2);
    assert!(has("000-example-1", "q(x) r(x,x)"));
}

#[test]
fn document_000_example_2_and_its_loss() {
    assert!(has("000-example-2", "r(x,x)"));
    let old = members_by(&kept("000-example-2"), Way::OnePiece);
    assert_eq!(old.len(), 1);
}

#[test]
fn document_000_example_3_and_its_loss() {
    assert!(has("000-example-3", "r(x,x) p1(x) p2(x) b(x)"));
    let old = members_by(&kept("000-example-3"), Way::OnePiece);
    assert_eq!(old.len(), 1);
}

#[test]
fn document_000_example_4() {
    for member in [
        "q(t) r(t,u) s(u,v)",
        "p(t) r(t,u) s(u,v)",
        "q(t) r(t,u) r(u,v)",
        "p(t) r(t,u) r(u,v)",
    ] {
        assert!(has("000-example-4", member), "{member}");
    }
    assert_eq!(told("000-example-4").len(), 4);
}

#[test]
fn document_001_example_1() {
    assert!(has("001-example-1", "h(u) q(u) r(u)"));
    assert_eq!(told("001-example-1").len(), 2);
}

#[test]
fn document_001_example_3() {
    // Both rules together leave s1 alone, and that covers the question itself.
    assert_eq!(told("001-example-3"), ["s1(a,b) s1(a,v0)"]);
}

#[test]
fn document_002_movie_actors() {
    assert_eq!(told("002-movie-actor").len(), 2);
    assert!(has("002-movie-actor", "movieActor(Ana)"));
}

#[test]
fn document_002_standard_unification() {
    assert!(has("002-standard-unification", "body(a,v,w)"));
    assert_eq!(told("002-standard-unification").len(), 2);
}

#[test]
fn document_002_datalog_rules() {
    assert!(has("002-grandparent-f", "p(x,y) p(y,a) f(x)"));
    // gp, and each of two p atoms as p, mo or fa.
    assert_eq!(told("002-grandparent").len(), 1 + 3 * 3);
    assert_eq!(told("002-grandparent-f").len(), 1 + 3 * 3);
    assert!(has("002-grandparent", "mo(x,y) fa(y,a)"));
}

#[test]
fn document_002_unsound_rewritings_are_not_made() {
    assert_eq!(rewritings(&kept("example-05")), vec![]);
    assert_eq!(rewritings(&kept("002-second-unknown")), vec![]);
    assert_eq!(rewritings(&kept("example-06")), vec![]);
}

#[test]
fn document_002_twins() {
    assert!(has("002-twins", "twin(w,t) female(w) male(t)"));
    assert!(has("002-twins", "twin(w,y) female(w) male(w)"));
    assert!(has("002-twins", "twin(t,w) female(w) male(t)"));
    assert!(has("002-twins", "twin(y,w) female(w) male(w)"));
    assert_eq!(told("002-twins").len(), 5);
}

#[test]
fn document_002_case_2() {
    assert!(rewritings(&kept("example-07"))
        .iter()
        .all(|(_, rewriting)| rewriting == "r(v0,v0) b(v0)"));
}

#[test]
fn document_002_answer_variables_by_a_special_atom() {
    assert_eq!(told("002-has-parent"), ["hasParent(v0,v1)", "person(v0)"]);
    assert_eq!(told("002-has-parent-answer").len(), 1);
}

#[test]
fn document_002_answer_variables_by_answer_places() {
    assert_eq!(told("002-has-parent-which"), ["a(v0) : hasParent(v1,v0)"]);
    let child = told("002-has-parent-which-child");
    assert_eq!(child, ["a(v0) : hasParent(v0,v1)", "a(v0) : person(v0)"]);
    let actors = told("002-movie-actor-which");
    assert_eq!(
        actors,
        ["a(v0) : movie(v1) play(v0,v1)", "a(v0) : movieActor(v0)"]
    );
}

#[test]
fn document_002_datalog_rules_with_an_answer_variable() {
    assert!(has("002-grandparent-f-which", "a(x) : p(x,y) p(y,a) f(x)"));
    assert!(has("002-grandparent-which", "a(x) : mo(x,y) fa(y,a)"));
    assert!(!has("002-grandparent-which", "a(y) : mo(x,y) fa(y,a)"));
    for name in ["002-grandparent-which", "002-grandparent-f-which"] {
        assert_eq!(told(name).len(), 1 + 3 * 3, "{name}");
    }
}

#[test]
fn document_002_the_size_of_a_union_with_answer_variables() {
    let members = members_by(&kept("002-word-list-which"), Way::Right);
    assert_eq!(members.len(), 4usize.pow(2));
    assert!(incomparable(&members));
    // Without the answer places the two atoms are one, and the members four.
    let mut source = kept("002-word-list-which");
    source.book.question.answer.clear();
    assert_eq!(members_by(&source, Way::Right).len(), 4);
}

#[test]
fn document_002_a_rule_divided_by_its_pieces() {
    let one = members_by(&kept("002-one-head"), Way::Right);
    let two = members_by(&kept("002-two-heads"), Way::Right);
    assert!(pair_off(&one, &two));
}

#[test]
fn document_002_atomic_heads() {
    let source = kept("002-atomic-heads");
    let fresh = source.relations.iter().position(|r| r == "pR").unwrap();
    let mut atomic = members_by(&source, Way::Right);
    atomic.retain(|member| member.atoms.iter().all(|atom| atom.relation != fresh));
    let ring = members_by(&kept("002-one-head-ring"), Way::Right);
    assert!(pair_off(&atomic, &ring));
}

#[test]
fn document_002_a_finite_universal_model() {
    assert_eq!(told("002-both-ways"), ["p(v0,v1)"]);
}

#[test]
fn document_002_the_size_of_a_union() {
    assert_eq!(told("002-word-list").len(), 4usize.pow(3));
}

#[test]
fn document_002_friends_are_refused() {
    assert_eq!(common::refused(&kept("example-11")), (8, 8));
}

#[test]
fn document_003_examples_1_to_3() {
    assert_eq!(rewritings(&kept("003-example-2")), vec![]);
    assert!(has("003-example-3", "r(u) t(u) p(u,y) r(y)"));
    assert_eq!(told("003-example-3").len(), 2);
    // The unsound rewriting holds in the ledger, the question never does.
    let ledger = ledger("003-example-2", "p(a,b) r(b)");
    let source = kept("003-example-2");
    let found = chase(
        &source.book.rules,
        &ledger,
        &source.book.question,
        &[],
        SMALL,
    );
    assert_eq!(found, Chased::Fails);
}

/// A ledger in the names of a kept source: every name in a place is a thing.
fn ledger(name: &str, facts: &str) -> Vec<Atom> {
    let source = kept(name);
    let atoms = question(&source, name, facts).atoms;
    let thing = |t| match t {
        second::term::Term::Variable(v) => second::term::Term::Constant(100 + v),
        constant => constant,
    };
    atoms.iter().map(|atom| atom.map(thing)).collect()
}

#[test]
fn document_003_example_12_has_38_rewritings() {
    for name in ["003-critical-manager", "003-critical-manager-boolean"] {
        let members = members_by(&kept(name), Way::Right);
        assert_eq!(members.len(), 38, "{name}");
        assert!(incomparable(&members));
    }
    // All 38 are explored and none is removed: L = 38 is enough, and L = 37 is not.
    let name = "003-critical-manager";
    let mut source = kept(name);
    source.book.allowed = 38;
    assert_eq!(members_by(&source, Way::Right).len(), 38);
    source.book.allowed = 37;
    assert_eq!(common::refused(&source), (10, 37));
    for member in [
        "criticalManager(Claire) woman(Claire)",
        "isManagerOf(Claire,x) hasArea(x,y) sensitiveArea(y) woman(Claire)",
        "accreditedManager(Claire) woman(Claire)",
        "project(x,z,Claire,w) project(x,y,a,b) innovation(y) woman(Claire)",
    ] {
        assert!(has(name, member), "{member}");
    }
}

#[test]
fn document_003_example_11() {
    assert!(has("003-example-11", "accreditedManager(Claire)"));
    assert!(has(
        "003-example-11",
        "isManagerOf(Claire,y) project(y,z,a,b) security(z)"
    ));
}

#[test]
fn document_003_example_5_by_chase() {
    let name = "003-critical-manager";
    let source = kept(name);
    let facts = ledger(name, "accreditedManager(Claire) woman(Claire)");
    let found = chase(
        &source.book.rules,
        &facts,
        &source.book.question,
        &[],
        SMALL,
    );
    assert_eq!(found, Chased::Holds);
}

#[test]
fn document_003_example_10() {
    // Both the scientific and the administrative manager of project id1 answer.
    let name = "003-example-11";
    let members = members_by(&kept(name), Way::Right);
    for facts in [
        "project(id1,a1,Claire,m2) security(a1)",
        "project(id1,a1,m1,Claire) security(a1)",
    ] {
        let ledger = ledger(name, facts);
        assert!(members.iter().any(|member| holds(member, &[], &ledger)));
    }
    let other = ledger(name, "project(id1,a1,m1,m2) security(a1)");
    assert!(!members.iter().any(|member| holds(member, &[], &other)));
}

#[test]
fn document_003_example_12_with_its_answer_variable() {
    let name = "003-critical-manager-which";
    let members = members_by(&kept(name), Way::Right);
    assert_eq!(members.len(), 38);
    assert!(incomparable(&members));
    for member in [
        "a(x) : criticalManager(x) woman(x)",
        "a(x) : isManagerOf(x,y) hasArea(y,z) sensitiveArea(z) woman(x)",
        "a(x) : accreditedManager(x) woman(x)",
    ] {
        assert!(has(name, member), "{member}");
    }
    // The named thing in the other book stands where the answer variable stands here.
    let named = told("003-critical-manager").len();
    assert_eq!(named, members.len());
    let (source, facts) = (kept(name), ledger(name, "accreditedManager(x) woman(x)"));
    let claire = facts[0].terms.clone();
    let chased = chase(
        &source.book.rules,
        &facts,
        &source.book.question,
        &claire,
        SMALL,
    );
    assert_eq!(chased, Chased::Holds);
}

#[test]
fn document_003_example_10_the_answers_are_m1_and_m2() {
    let name = "003-example-11-which";
    assert!(has(name, "a(x) : accreditedManager(x)"));
    let members = members_by(&kept(name), Way::Right);
    let facts = ledger(name, "project(id1,a1,m1,m2) security(a1)");
    let [id1, a1, m1, m2] = facts[0].terms[..] else {
        panic!("four places");
    };
    let answers = |member| rows(member, &facts, &[id1, a1, m1, m2]);
    let found: BTreeSet<Row> = members.iter().flat_map(answers).collect();
    assert_eq!(found, BTreeSet::from([vec![m1], vec![m2]]));
}

#[test]
fn document_003_example_7_with_answer_variables_is_refused() {
    assert_eq!(common::refused(&kept("003-example-7-which")), (9, 56));
    // With one concept less there is room: (n + 1)^k.
    let text = common::kept_text("003-example-7-which").replace("rule b3(x) -> b2(x)\n", "");
    assert_eq!(members_by(&read(&text), Way::Right).len(), 3usize.pow(3));
}

#[test]
fn document_003_example_7() {
    assert_eq!(told("003-example-7").len(), 4usize.pow(3));
    // Asked with three variables instead, the members are as many as the concepts.
    assert_eq!(told("003-example-7-open").len(), 4);
    // One piece at a time loses three of them, with nothing but a word list.
    let old = members_by(&kept("003-example-7-open"), Way::OnePiece);
    assert_eq!(old.len(), 1);
}

#[test]
fn document_003_example_17() {
    assert_eq!(told("003-example-17"), ["r(v0,v0)", "p(v0)"]);
}

#[test]
fn document_004_example_1_unfoldings() {
    for member in ["a(X)", "b(X)", "r(X,z)", "s(z,X)", "c(X)", "t(z,X)"] {
        assert!(has("004-example-1-a", member), "{member}");
    }
    assert_eq!(told("004-example-1-a").len(), 6);
}

#[test]
fn document_004_example_2_has_28_core_rewritings() {
    let members = members_by(&kept("004-example-2"), Way::Right);
    assert_eq!(members.len(), 28);
    assert!(incomparable(&members));
    assert!(has("004-example-2", "c(X) s(X,z)"));
    assert!(has("004-example-2", "t(y,X) d(X)"));
    // The question itself is no core: r(x,y) gives a(x), so a(X) says nothing more.
    assert!(!has("004-example-2", "a(X) r(X,y) a(y) s(X,z)"));
}

#[test]
fn document_004_with_its_answer_variable() {
    let members = members_by(&kept("004-example-2-which"), Way::Right);
    assert_eq!(members.len(), 28);
    assert!(incomparable(&members));
    assert!(has("004-example-2-which", "a(x) : c(x) s(x,z)"));
    assert!(has("004-example-2-which", "a(x) : t(y,x) d(x)"));
    for member in ["a(x)", "b(x)", "r(x,z)", "s(z,x)", "c(x)", "t(z,x)"] {
        let member = format!("a(x) : {member}");
        assert!(has("004-example-1-a-which", &member), "{member}");
    }
    assert_eq!(told("004-example-1-a-which").len(), 6);
}

/// A kept source with another question.
fn asked_of(name: &str, question: &str) -> Vec<String> {
    let lines = common::kept_text(name);
    let kept = lines.lines().filter(|line| !line.starts_with("question"));
    let text = format!("{}\nquestion {question}\n", Vec::from_iter(kept).join("\n"));
    common::told_by(&read(&text), Way::Right)
}

#[test]
fn document_004_table_3() {
    let unfoldings = |question: &str| asked_of("004-example-2", question);
    assert_eq!(unfoldings("c(X)"), ["c(X)", "t(v0,X)"]);
    let by_first = ["r(X,v0)", "s(v0,X)", "c(X)", "t(v0,X)"];
    assert_eq!(unfoldings("r(X,y)"), by_first);
    // Its second place kept instead, as if a constant stood there.
    let by_second = unfoldings("r(x,X)");
    assert_eq!(by_second, ["r(v0,X)", "s(X,v0)", "d(X)"]);
    assert_eq!(unfoldings("r(X,X)"), ["r(X,X)", "s(X,X)"]);
    assert_eq!(unfoldings("s(X,y)"), ["s(X,v0)", "d(X)"]);
}

#[test]
fn document_003_example_16_divides_the_first_rule() {
    let name = "003-critical-manager";
    let divided: Vec<String> = common::kept_text(name)
        .lines()
        .map(
            |line| match line.strip_prefix("rule project(x,y,z,w) -> ") {
                None => line.to_string(),
                Some(head) => {
                    let rules = head
                        .split(' ')
                        .map(|a| format!("rule project(x,y,z,w) -> {a}"));
                    Vec::from_iter(rules).join("\n")
                }
            },
        )
        .collect();
    let divided = read(&divided.join("\n"));
    assert_eq!(divided.book.rules.len(), kept(name).book.rules.len() + 2);
    let one = members_by(&kept(name), Way::Right);
    assert!(pair_off(&one, &members_by(&divided, Way::Right)));
}

#[test]
fn ledgers_that_the_documents_give_against_unsound_rewritings() {
    for (name, facts) in [
        ("000-example-1", "q(a) p(b,c) r(a,b)"),
        ("example-05", "person(a) dentist(b)"),
        ("002-second-unknown", "p(a)"),
        ("003-example-2", "p(a,b) r(b)"),
    ] {
        let (source, facts) = (kept(name), ledger(name, facts));
        let found = chase(
            &source.book.rules,
            &facts,
            &source.book.question,
            &[],
            SMALL,
        );
        assert_eq!(found, Chased::Fails, "{name}");
        let members = members_by(&source, Way::Right);
        assert!(!members.iter().any(|m| holds(m, &[], &facts)), "{name}");
    }
}

#[test]
fn every_kept_union_agrees_with_the_chase() {
    let directory = concat!(env!("CARGO_MANIFEST_DIR"), "/../books");
    let mut random = Random::new(31);
    let mut decided = 0;
    for entry in std::fs::read_dir(directory).unwrap() {
        let path = entry.unwrap().path();
        let Some("book") = path.extension().and_then(|e| e.to_str()) else {
            continue;
        };
        let bytes = std::fs::read(&path).unwrap();
        let book = book::read(&bytes, &mut Seen::default()).unwrap();
        if let Outcome::Complete { members, .. } = explore(&book, &mut Seen::default()) {
            for ledger in ledgers(&book, &members, &mut random) {
                let found = check(&book, &members, &ledger);
                assert!(found.disagreed.is_empty(), "{path:?} {ledger:?}");
                decided += (found.yes + found.no > 0) as usize;
            }
        }
    }
    assert!(decided > 500);
}
