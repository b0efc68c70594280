//! Books made on purpose: at the limits, and for behaviours that chance rarely meets.

use crate::book;
use crate::damage;
use crate::raw;
use crate::six;
use crate::source;
use crate::width::{Width, WIDTHS};
use std::fmt::Write;

/// A name and the bytes of each.
pub fn books() -> Vec<(String, Vec<u8>)> {
    let mut books = Vec::new();
    let texts = sources().into_iter().chain(answered_sources());
    let texts = texts.chain(known_sources()).chain(six::sources());
    for (name, text) in texts {
        let source = source::read(&text).unwrap_or_else(|what| panic!("{name}: {what}"));
        books.push((name.to_string(), book::write(&source.book)));
    }
    books.extend(raw::new_form());
    for width in WIDTHS {
        let places = width.places();
        books.extend(raw::books(width));
        let large = source::read(&largest("r0", width)).unwrap().book;
        for (i, bytes) in damage::far(&large).into_iter().enumerate() {
            books.push((format!("far, {places} places, {i}"), bytes));
        }
    }
    for (name, text) in [
        ("swept", SWEPT),
        ("swept, answered", SWEPT_ANSWERED),
        ("swept, known", SWEPT_KNOWN),
    ] {
        let swept = source::read(text).unwrap().book;
        for (i, bytes) in damage::sweep(&swept).into_iter().enumerate() {
            books.push((format!("{name} {i}"), bytes));
        }
        let swept = source::read(&format!("places 6\n{text}")).unwrap().book;
        for (i, bytes) in damage::sweep(&swept).into_iter().enumerate() {
            books.push((format!("{name}, new {i}"), bytes));
        }
    }
    books
}

/// A book with every kind of part, whose every byte is changed in turn.
const SWEPT: &str = "relation p 1\nrelation q 2\nconstant a b\n\
    rule p(x) -> q(x,y)\nrule p(x) p(y) -> p(x) q(y,a)\n\
    question p(x) q(x,b)\nallow 9\n";

/// The same with an answer record, and its variable in one place alone.
const SWEPT_ANSWERED: &str = "relation p 1\nrelation q 2\nconstant a b\n\
    rule p(x) -> q(x,y)\nrule p(x) p(y) -> p(x) q(y,a)\n\
    question a(x,b) : p(x) q(y,b)\nallow 9\n";

/// A book with rules of empty bodies, first and last.
const SWEPT_KNOWN: &str = "relation p 1\nrelation q 2\nconstant a b\n\
    rule -> p(a)\nrule p(x) -> q(x,y)\nrule -> q(x,b) p(x)\n\
    question a(x) : p(x) q(x,b)\nallow 9\n";

/// The sound ones without answer places, as sources.
fn sources() -> Vec<(&'static str, String)> {
    vec![
        ("smallest", smallest()),
        ("largest", largest("r0", Width::Four)),
        ("largest, heads met", largest("r63", Width::Four)),
        ("390,624 choices", many_choices()),
        ("390,624 choices, two places", many_choices_wide()),
        ("11 atoms, uncovered", eleven("t", 1)),
        ("11 atoms, covered", eleven("p", 1)),
        ("44 variables, uncovered", eleven("t", 4)),
        ("44 variables, covered", eleven("p", 4)),
        ("32 variables", widest(Width::Four)),
        ("a last atom that fits nowhere", fits_nowhere()),
        ("two last atoms that do not meet", do_not_meet()),
        ("64 members, L 64", words(7, "", "", 64)),
        ("64 members, L 63", words(7, "", "", 63)),
        ("65 members", words(8, "", "", 1000)),
        ("room used again", words(7, ROOM_RULE, "", 1000)),
        (
            "room used again, complete",
            words(7, "rule p1(y) -> p7(c1)", "", 1000),
        ),
        (
            "the largest union",
            words(7, "", &format!("{LONG_QUESTION} b(x,x)"), 1000),
        ),
        ("1,000 explored", long(1000)),
        ("1,000 wanted, L 999", long(999)),
        ("8 before 9", words(7, LONG_RULE, LONG_QUESTION, 1000)),
        (
            "9 after a removal",
            words(8, "rule p1(y) -> p2(c0)", "", 1000),
        ),
        ("a chain of 32 rules", chain(33)),
        ("a chain of 32 rules, L 32", chain(32)),
        ("a chain of 32 rules, L 1,000", chain(1000)),
        ("127 constants", constants()),
        ("complete with L 1", simple(1)),
        ("the question removed", removed()),
        ("a removed member stops", stops()),
    ]
}

/// Those with answer places.
fn answered_sources() -> Vec<(&'static str, String)> {
    let longest = format!("{LONG_QUESTION} b(x,x)");
    vec![
        ("smallest, answered", answered("x", smallest())),
        (
            "largest, answered",
            answered("b7,c126,a0,a0", largest("r0", Width::Four)),
        ),
        (
            "32 variables, answered",
            answered("p7_3,p3_2", widest(Width::Four)),
        ),
        (
            "11 atoms, answered, uncovered",
            answered("a0", eleven("t", 1)),
        ),
        (
            "11 atoms, answered, covered",
            answered("a0,h0", eleven("p", 1)),
        ),
        (
            "44 variables, answered",
            answered("a0,b3,h2", eleven("p", 4)),
        ),
        ("390,624 choices, answered", answered("c7", many_choices())),
        ("eight atoms and the record", answered("x", eight())),
        ("nine atoms but for the record", answered("c0", nine())),
        (
            "64 members, answered",
            answered("c1,c0", words(7, "", "", 64)),
        ),
        (
            "64 members, answered, L 63",
            answered("c0", words(7, "", "", 63)),
        ),
        (
            "65 members, answered",
            answered("c0", words(8, "", "", 1000)),
        ),
        (
            "the largest union, answered",
            answered("z,x,x", words(7, "", &longest, 1000)),
        ),
        (
            "two answers become one",
            answered("x,y", pair("s(x) -> p(x,x)")),
        ),
        (
            "an answer becomes a constant",
            answered("x,y", pair("s(x) -> p(x,c)")),
        ),
        (
            "an answer and an unknown",
            answered("y", pair("s(x) -> p(x,y)")),
        ),
        (
            "an answer beside an unknown",
            answered("x", pair("s(x) -> p(x,y)")),
        ),
        (
            "numbered from the answer on",
            answered("y,x,y,c", pair("s(x) -> p(x,y)")),
        ),
        ("the atoms covered, the answers not", apart()),
        ("an answered member removed", widened()),
    ]
}

/// Those with rules of empty bodies.
fn known_sources() -> Vec<(&'static str, String)> {
    vec![
        ("known", known("-> p(y)", "p(x)", 10)),
        ("known, L 1", known("-> p(y)", "p(x)", 1)),
        ("known, L 2", known("-> p(y)", "p(x)", 2)),
        ("known, twice asked", known("-> p(y)", "p(x) p(z)", 10)),
        ("known in part", known("-> p(y)", "p(x) q(z,z)", 10)),
        (
            "known, but not of what is left",
            known("-> p(y)", "p(x) q(x,z)", 10),
        ),
        ("known, of another thing", known("-> p(a)", "p(b)", 10)),
        (
            "known, an unknown for an answer",
            known("-> p(y)", "a(x) : p(x)", 10),
        ),
        ("known by name", known("-> p(a)", "a(x) : p(x)", 10)),
        ("known by name, L 1", known("-> p(a)", "a(x) : p(x)", 1)),
        (
            "known beside an answer",
            known("-> p(y)", "a(b) : p(x)", 10),
        ),
        (
            "known by four names",
            known("-> q(a,b)", "a(x,y,y,x) : q(x,y)", 10),
        ),
        (
            "known by name twice",
            known("-> p(a)\nrule -> p(a) p(b)", "a(x) : p(x)", 10),
        ),
        (
            "known by name, then by a rule",
            known("-> p(a)\nrule q(a,x) -> p(a)", "a(x) : p(x)", 10),
        ),
        (
            "known by name, after a rule",
            known("q(a,x) -> p(a)\nrule -> p(a)", "a(x) : p(x)", 10),
        ),
        (
            "known at the end of a chain",
            known("p(x) -> q(x,y)\nrule -> p(y)", "q(x,y)", 10),
        ),
        (
            "known, the member taken up removed",
            known("-> p(y)\nrule q(x,y) -> p(x)", "p(x)", 10),
        ),
        (
            "known, four atoms",
            known("-> p(x) q(x,y) q(y,x) p(a)", "p(x) q(x,y)", 10),
        ),
        ("32 known", all_known("")),
        ("32 known, answered", all_known("a(x) : ")),
        ("64 members, of them 49 without atoms", known_pairs(7)),
        ("9 among members without atoms", known_pairs(8)),
    ]
}

/// A book of one rule, or of more with a line for each, and a question.
fn known(rule: &str, question: &str, allowed: usize) -> String {
    format!(
        "relation p 1\nrelation q 2\nconstant a b\n\
         rule {rule}\nquestion {question}\nallow {allowed}\n"
    )
}

/// 32 rules of empty bodies; the answer, if any, is each of 32 things.
fn all_known(answer: &str) -> String {
    let mut text = "relation p 1\n".to_string();
    (0..32).for_each(|i| writeln!(text, "constant c{i}").unwrap());
    (0..32).for_each(|i| writeln!(text, "rule -> p(c{i})").unwrap());
    writeln!(text, "question {answer}p(x)\nallow 1000").unwrap();
    text
}

/// Pairs of so many known things: a row for each, and what else may stand in the ledger.
fn known_pairs(things: usize) -> String {
    let mut text = "relation p 1\n".to_string();
    (0..things).for_each(|i| writeln!(text, "constant c{i}").unwrap());
    (0..things).for_each(|i| writeln!(text, "rule -> p(c{i})").unwrap());
    text += "question a(x,y) : p(x) p(y)\nallow 1000\n";
    text
}

/// A source, its question asked with these answer places.
pub fn answered(places: &str, text: String) -> String {
    text.replacen("question ", &format!("question a({places}) : "), 1)
}

/// A question of one atom, and one rule.
fn pair(rule: &str) -> String {
    format!("relation p 2\nrelation s 1\nconstant c\nrule {rule}\nquestion p(x,y)\nallow 10\n")
}

/// A rewriting of eight atoms, which the answer record does not make nine.
fn eight() -> String {
    "relation p 2\nrelation q 1\nrelation s 2\n\
     rule s(x,y) s(y,z) -> q(x)\n\
     question p(x,y) p(y,z) p(z,u) p(u,w) p(w,x) p(x,x) q(x)\nallow 10\n"
        .into()
}

/// A rewriting of nine atoms.
fn nine() -> String {
    eight()
        .replace("relation q 1", "relation q 1\nconstant c0")
        .replace("rule s(x,y)", "rule s(x,x) s(x,y)")
}

/// Two members with the same atoms and different answers.
fn apart() -> String {
    "relation p 1\nconstant c\nrule p(x) -> p(c)\nquestion a(x) : p(x)\nallow 10\n".into()
}

/// A rewriting that covers the question, the answer kept.
fn widened() -> String {
    "relation p 1\nrelation q 1\nconstant c\n\
     rule q(x) -> q(c)\nquestion a(x) : p(x) q(c)\nallow 10\n"
        .into()
}

/// One relation, no rules, one atom.
pub fn smallest() -> String {
    "relation p 1\nquestion p(x)\nallow 1\n".into()
}

/// 64 relations, 127 constants, 32 rules of four atoms to four, eight question atoms, all of
/// as many places as there are. The heads have relation r0, r1, ..; the question asks for
/// `asked`.
pub fn largest(asked: &str, width: Width) -> String {
    let mut text = String::new();
    let places = width.places();
    (0..64).for_each(|i| writeln!(text, "relation r{i} {places}").unwrap());
    (0..127).for_each(|i| writeln!(text, "constant c{i}").unwrap());
    for i in 0..32 {
        let more = ["", ",u,w"][width as usize];
        let atom = |r: usize, a: &str| format!("r{r}({a},{a}1,c{},c{}{more})", i, 126 - i);
        let body: Vec<String> = (32..36).map(|r| atom(r, "x")).collect();
        let head: Vec<String> = (0..4).map(|r| atom(63 - (i + r) % 32, "y")).collect();
        writeln!(text, "rule {} -> {}", body.join(" "), head.join(" ")).unwrap();
    }
    let more = |i: usize| match width {
        Width::Four => String::new(),
        Width::Six => format!(",d{i},c{i}"),
    };
    let question: Vec<String> = (0..8)
        .map(|i| format!("{asked}(a{i},b{i},c{i},c{}{})", 126 - i, more(i)))
        .collect();
    writeln!(text, "question {}\nallow 1000", question.join(" ")).unwrap();
    text
}

/// Eight atoms of one relation, and a head of four equal ones: every choice agrees in
/// relations, and all but 32 have a class with two constants.
fn many_choices() -> String {
    let atoms: Vec<String> = (0..8).map(|i| format!("p(c{i})")).collect();
    format!(
        "relation p 1\nrelation q 1\nconstant c0 c1 c2 c3 c4 c5 c6 c7\n\
         rule q(x) -> p(x) p(x) p(x) p(x)\nquestion {}\nallow 1\n",
        atoms.join(" ")
    )
}

/// As many choices again, but the relations tell them apart.
fn many_choices_wide() -> String {
    "relation p 2\nrelation q 2\nrelation s 1\n\
     rule s(x) -> p(x,y) q(y,z) q(z,y) q(y,y)\n\
     question p(a,b) p(b,a) p(a,c) p(c,a) p(d,d) p(e,f) p(f,e) q(a,a)\nallow 40\n"
        .into()
}

/// Seven atoms of p and one of t, and a rule that puts four of q in the
/// place of one of relation `head`: 11 atoms, and with four places 44 variables, with six 66. The
/// question covers the rewriting if another atom of that relation is left.
pub fn eleven(head: &str, places: usize) -> String {
    let atom = |relation: &str, name: &str| {
        let terms: Vec<String> = (0..places).map(|i| format!("{name}{i}")).collect();
        format!("{relation}({})", terms.join(","))
    };
    let body: Vec<String> = ["w", "x", "y", "z"].map(|name| atom("q", name)).into();
    let asked: Vec<String> = ["a", "b", "c", "d", "e", "f", "g"]
        .map(|name| atom("p", name))
        .into();
    format!(
        "relation p {places}\nrelation q {places}\nrelation t {places}\n\
         rule {} -> {}\nquestion {} {}\nallow 5\n",
        body.join(" "),
        atom(head, "u"),
        asked.join(" "),
        atom("t", "h")
    )
}

/// Seven atoms with ten candidates each before the one that has none: covering that tries
/// placements in order without looking ahead tries 10^7 of them.
fn fits_nowhere() -> String {
    format!(
        "relation p 4\nrelation q 1\nconstant c0 c1\n\
         rule {} q(c1) -> q(c0)\nquestion {} q(c0)\nallow 5\n",
        four_places("p", 3),
        four_places("p", 7)
    )
}

/// Six atoms with eight candidates each before two that have one each but share a
/// variable: 8^6 placements.
fn do_not_meet() -> String {
    format!(
        "relation p 4\nrelation q 1\nrelation s 1\nrelation t 1\n\
         rule {} s(y) t(z) -> s(z)\nquestion {} q(z) s(z)\nallow 5\n",
        four_places("p", 2),
        four_places("p", 6)
    )
}

/// So many atoms of four places, every variable once.
fn four_places(relation: &str, many: usize) -> String {
    let atom = |i: usize| format!("{relation}(a{i},b{i},d{i},e{i})");
    let atoms: Vec<String> = (0..many).map(atom).collect();
    atoms.join(" ")
}

/// Members of eight atoms and 32 variables, with six places 48.
pub fn widest(width: Width) -> String {
    let places = width.places();
    let relations: Vec<String> = (0..8)
        .map(|i| format!("relation p{i} {places}\n"))
        .collect();
    let terms = |name: &str, order: Vec<usize>| {
        let terms: Vec<String> = order.iter().map(|i| format!("{name}{i}")).collect();
        terms.join(",")
    };
    let places = || (0..places).collect::<Vec<_>>();
    let asked: Vec<String> = (0..8)
        .map(|i| format!("p{i}({})", terms(&format!("p{i}_"), places())))
        .collect();
    let turned: Vec<usize> = places().into_iter().rev().collect();
    let [mut back, mut again] = [places(), places()];
    (back[3], again[3]) = (0, 2);
    format!(
        "{}relation q {}\nrule q({}) -> p7({})\nrule p0({}) -> q({})\n\
         question {}\nallow 1000\n",
        relations.concat(),
        width.places(),
        terms("x", places()),
        terms("x", turned),
        terms("x", back),
        terms("x", again),
        asked.join(" ")
    )
}

/// Example 10 with so many rules, and a rule and question atoms more.
pub fn words(rules: usize, more_rules: &str, more_atoms: &str, allowed: usize) -> String {
    let mut text = String::new();
    (0..=rules).for_each(|i| writeln!(text, "relation p{i} 1").unwrap());
    text += "relation b 2\nconstant c0 c1\n";
    (1..=rules).for_each(|i| writeln!(text, "rule p{i}(x) -> p0(x)").unwrap());
    writeln!(text, "{more_rules}").unwrap();
    writeln!(text, "question p0(c0) p0(c1) {more_atoms}\nallow {allowed}").unwrap();
    text
}

/// A rule whose rewriting covers a member when there are 64.
const ROOM_RULE: &str = "rule p1(y) p1(z) -> p7(c0) p7(c1)";

/// A rule that makes a question of seven atoms longer than eight when there are 64
/// members.
const LONG_RULE: &str = "rule b(c0,c0) b(c0,c1) b(c1,c0) b(c1,c1) -> p7(c1)";

/// Five atoms that no rule meets.
pub const LONG_QUESTION: &str = "b(x,y) b(y,z) b(z,x) b(x,c0) b(c1,x)";

/// Fifty pairs of words, and twenty steps from the narrowest form of each to the widest:
/// every step's rewriting covers the member taken up, which is removed. 1,000 questions are
/// taken up in all.
fn long(allowed: usize) -> String {
    let mut text = String::new();
    (0..10).for_each(|i| writeln!(text, "relation w{i} 1").unwrap());
    (0..5).for_each(|i| writeln!(text, "relation u{i} 2").unwrap());
    text += "relation g 4\nconstant k d0 d1 e0 e1 e2 e3 e4 e5\n";
    (1..10).for_each(|i| writeln!(text, "rule w{i}(x) -> w{}(x)", i - 1).unwrap());
    (1..5).for_each(|i| writeln!(text, "rule u{i}(x,y) -> u{}(x,y)", i - 1).unwrap());
    (0..5).for_each(|i| writeln!(text, "rule u{i}(x,y) -> u{i}(k,y)").unwrap());
    for widened in ["k,y,z,u", "x,k,z,u", "x,y,k,u"] {
        writeln!(text, "rule g(x,y,z,u) -> g({widened})").unwrap();
    }
    let narrow: Vec<String> = (0..6).map(|i| format!("g(k,k,k,e{i})")).collect();
    let narrow = narrow.join(" ");
    writeln!(text, "question w0(d0) u0(k,d1) {narrow}\nallow {allowed}").unwrap();
    text
}

/// A chain of 32 rules from one end to the other: 33 members, each a step further.
fn chain(allowed: usize) -> String {
    let mut text = String::new();
    (0..64).for_each(|i| writeln!(text, "relation p{i} 1").unwrap());
    (0..32).for_each(|i| writeln!(text, "rule p{}(x) -> p{i}(x)", i + 1).unwrap());
    writeln!(text, "question p0(x)\nallow {allowed}").unwrap();
    text
}

/// The last of 127 constants in the head, the body and the question.
fn constants() -> String {
    let names: Vec<String> = (0..127).map(|i| format!("c{i}")).collect();
    format!(
        "relation p 2\nrelation q 2\nconstant {}\nrule q(x,c126) -> p(c125,x)\n\
         rule p(c99,x) -> q(c100,c126)\nquestion p(x,c100) p(x,y)\nallow 1000\n",
        names.join(" ")
    )
}

/// A question that no rule meets.
fn simple(allowed: usize) -> String {
    format!("relation p 1\nrelation q 1\nrule p(x) -> q(x)\nquestion p(x)\nallow {allowed}\n")
}

/// A rewriting that covers the question, and one that covers that.
fn removed() -> String {
    "relation p 1\nrelation q 1\nconstant c d\n\
     rule p(x) -> p(c)\nrule q(x) -> p(x)\nquestion p(c) p(d) p(d) p(x)\nallow 50\n"
        .into()
}

/// The member taken up is removed by a rewriting with the first rule; what the second
/// rule would give of it comes later, or not at all.
fn stops() -> String {
    "relation p 1\nrelation q 1\nrelation s 1\nconstant c\n\
     rule p(x) -> p(c)\nrule q(c) -> p(c)\nrule s(x) -> p(x)\nquestion p(c)\nallow 50\n"
        .into()
}
