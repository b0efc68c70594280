//! The second program's own parts against plainer definitions, on many small cases.

mod common;

use second::book::Book;
use second::cover::{covers, equivalent, holds};
use second::explore::{explore, Outcome};
use second::form::form;
use second::ledger::{ledgers, rows, Row};
use second::random::Random;
use second::seen::Seen;
use second::term::{variables, Atom, Question, Rule, Term};
use second::unify::{
    choice_count, digits_of, for_each_choice, of_question, of_rule, Apart, Choice, Classes,
};
use second::{generate, unify};
use std::collections::{BTreeMap, BTreeSet};

/// An atom of relation 0 or 1, of one and two places, over few terms.
fn atom(random: &mut Random, variables: usize, constants: usize) -> Atom {
    let relation = random.below(2);
    let terms = (0..relation + 1).map(|_| match random.percent(20) && constants > 0 {
        true => Term::Constant(random.below(constants)),
        false => Term::Variable(random.below(variables)),
    });
    Atom::new(relation, terms.collect())
}

/// So many atoms.
fn atoms(random: &mut Random, many: usize, variables: usize) -> Vec<Atom> {
    (0..many).map(|_| atom(random, variables, 2)).collect()
}

/// A question of so many atoms, with up to two answer places.
fn question(random: &mut Random, many: usize, variables: usize) -> Question {
    let places = *random.one_of(&[0, 0, 1, 1, 2]);
    let answer = (0..places).map(|_| match random.percent(20) {
        true => Term::Constant(random.below(2)),
        false => Term::Variable(random.below(variables)),
    });
    Question {
        answer: answer.collect(),
        atoms: atoms(random, many, variables),
    }
}

/// The answer record as source document 002 has it: an atom of a relation of its own.
fn ans(question: &Question) -> Option<Atom> {
    let atom = Atom::new(99, question.answer.clone());
    question.is_answered().then_some(atom)
}

/// The atoms of a question and its answer record among them.
fn with_ans(question: &Question) -> Vec<Atom> {
    let atoms = question.atoms.iter().cloned();
    ans(question).into_iter().chain(atoms).collect()
}

/// Every term of these atoms, once.
fn terms(atoms: &[Atom]) -> Vec<Term> {
    let set: BTreeSet<Term> = atoms.iter().flat_map(|a| a.terms.clone()).collect();
    set.into_iter().collect()
}

/// Covering once more: every map of A's variables to B's terms, one after the other. With
/// an answer record on one alone there is nothing to send it to, or nothing sent to it.
fn covers_by_maps(a: &Question, b: &Question) -> bool {
    if a.is_answered() != b.is_answered() {
        return false;
    }
    let (a, b) = (&with_ans(a), &with_ans(b));
    let (from, to) = (Vec::from_iter(variables(a)), terms(b));
    let count = (to.len() as u64).pow(from.len() as u32);
    (0..count).any(|number| {
        let mut rest = number;
        let mut map = BTreeMap::new();
        for v in &from {
            map.insert(*v, to[(rest % to.len() as u64) as usize]);
            rest /= to.len() as u64;
        }
        a.iter().all(|atom| {
            b.contains(&atom.map(|t| match t {
                Term::Variable(v) => map[&v],
                Term::Constant(_) => t,
            }))
        })
    })
}

#[test]
fn covering_is_that_some_map_exists() {
    let mut random = Random::new(11);
    let (mut yes, mut answered, mut always) = (0, 0, 0);
    for _ in 0..20_000 {
        let (many, more) = (random.between(0, 4), random.between(0, 5));
        let a = question(&mut random, many, 4);
        let b = question(&mut random, more, 3);
        assert_eq!(covers(&a, &b), covers_by_maps(&a, &b), "{a:?} {b:?}");
        yes += covers(&a, &b) as usize;
        answered += (a.is_answered() && covers(&a, &b)) as usize;
        always += (a.is_always() && covers(&a, &b)) as usize;
    }
    assert!(yes - always > 1000 && answered > 300 && always > 300);
}

#[test]
fn covering_sends_the_answer_record_to_the_others() {
    let one = |t| Atom::new(0, vec![t]);
    let (v, c) = (Term::Variable(0), Term::Constant(0));
    let boolean = Question::boolean(vec![one(v)]);
    let with = |answer: &[Term], t| Question {
        answer: answer.to_vec(),
        atoms: vec![one(t)],
    };
    // As conjunctions p(v0) would cover a(c0) p(c0).
    assert!(covers(&boolean, &with(&[c], c).unanswered()));
    assert!(!covers(&boolean, &with(&[c], c)));
    assert!(!covers(&with(&[c], c), &boolean));
    assert!(covers(&with(&[v], v), &with(&[c], c)));
    assert!(!covers(&with(&[v], v), &with(&[v], c)));
    assert!(!covers(&with(&[c], v), &with(&[v], v)));
    assert!(!covers(&with(&[v], v), &with(&[v, v], v)));
    assert!(!covers(&with(&[v, v], v), &with(&[v], v)));
}

#[test]
fn without_atoms_it_covers_all_that_its_answer_record_allows() {
    let mut random = Random::new(27);
    let (mut yes, mut no) = (0, 0);
    for _ in 0..5000 {
        let many = random.between(0, 5);
        let (a, b) = (question(&mut random, 0, 2), question(&mut random, many, 3));
        // The answer records as atoms, and nothing else.
        let allowed = a.is_answered() == b.is_answered()
            && covers(
                &Question::boolean(with_ans(&a)),
                &Question::boolean(ans(&b).into_iter().collect()),
            );
        assert_eq!(covers(&a, &b), allowed, "{a:?} {b:?}");
        assert!(b.is_always() || !covers(&b, &a));
        yes += allowed as usize;
        no += !allowed as usize;
    }
    assert!(yes > 1000 && no > 1000, "{yes} {no}");
}

#[test]
fn without_atoms_it_holds_in_every_ledger() {
    let c = |n: usize| Term::Constant(n);
    let fact = Atom::new(0, vec![c(3)]);
    let known = |answer: &[Term]| Question {
        answer: answer.to_vec(),
        atoms: Vec::new(),
    };
    for ledger in [vec![], vec![fact]] {
        assert!(holds(&known(&[]), &[], &ledger));
        assert!(holds(&known(&[c(0)]), &[c(0)], &ledger));
        assert!(!holds(&known(&[c(0)]), &[c(1)], &ledger));
        assert!(!holds(&known(&[c(0)]), &[], &ledger));
        assert!(!holds(&known(&[]), &[c(0)], &ledger));
        assert_eq!(rows(&known(&[c(0), c(1)]), &ledger, &[c(0), c(1)]).len(), 1);
    }
}

#[test]
fn covering_is_reflexive_and_transitive() {
    let mut random = Random::new(12);
    for _ in 0..5000 {
        let [a, b, c] = [0; 3].map(|_| {
            let many = random.between(0, 3);
            question(&mut random, many, 3)
        });
        assert!(covers(&a, &a));
        assert!(!(covers(&a, &b) && covers(&b, &c)) || covers(&a, &c));
    }
}

#[test]
fn a_form_is_equivalent_and_its_own_form() {
    let mut random = Random::new(13);
    for _ in 0..5000 {
        let many = random.between(1, 6);
        let a = question(&mut random, many, 6);
        assert!(equivalent(&a, &form(&a)));
        assert_eq!(form(&form(&a)), form(&a));
        let renamed = a.map(|t| match t {
            Term::Variable(v) => Term::Variable(31 - v),
            Term::Constant(_) => t,
        });
        assert_eq!(form(&renamed), form(&a));
    }
}

#[test]
fn numbering_starts_at_the_answer_record() {
    let mut random = Random::new(19);
    for _ in 0..2000 {
        let many = random.between(1, 6);
        let a = question(&mut random, many, 6);
        let formed = form(&a);
        // The form is that of the conjunction with the record as its first atom.
        assert_eq!(
            with_ans(&formed),
            form(&Question::boolean(with_ans(&a))).atoms
        );
        let first = formed.answer.iter().find_map(Term::variable);
        assert!(first.is_none() || first == Some(0), "{formed:?}");
    }
}

#[test]
fn the_choices_are_all_numbers_whose_relations_agree() {
    let mut random = Random::new(14);
    for _ in 0..500 {
        let (n, h) = (random.between(0, 4), random.between(1, 4));
        let (question, rule) = (question(&mut random, n, 3), rule(&mut random, h));
        let mut visited = Vec::new();
        for_each_choice(&question, &rule, &mut |number, choice| {
            assert_eq!(choice.digits, digits_of(number, h, n));
            visited.push(number);
            true
        });
        let agrees = |number: &u64| {
            let digits = digits_of(*number, h, n);
            let mut pairs = digits.iter().zip(&question.atoms).filter(|(d, _)| **d > 0);
            pairs.all(|(d, atom)| rule.head[*d - 1].relation == atom.relation)
        };
        let all: Vec<u64> = (1..choice_count(h, n)).filter(agrees).collect();
        assert_eq!(visited, all);
    }
}

/// A rule with so many head atoms.
fn rule(random: &mut Random, head: usize) -> Rule {
    let many = random.between(0, 2);
    Rule {
        body: atoms(random, many, 2),
        head: atoms(random, head, 4),
    }
}

/// The classes once more: terms related by a chain of pairs.
fn classes_by_chains(choice: &Choice) -> BTreeSet<BTreeSet<Apart>> {
    let mut pairs: BTreeSet<(Apart, Apart)> = BTreeSet::new();
    for (atom, head) in choice.sent() {
        for (&t, &u) in atom.terms.iter().zip(&head.terms) {
            let (t, u) = (of_question(t), of_rule(u));
            pairs.extend([(t, u), (u, t), (t, t), (u, u)]);
        }
    }
    loop {
        let mut more = pairs.clone();
        for (a, b) in &pairs {
            for (c, d) in &pairs {
                if b == c {
                    more.insert((*a, *d));
                }
            }
        }
        if more == pairs {
            break;
        }
        pairs = more;
    }
    let class = |t: Apart| pairs.iter().filter(move |(a, _)| *a == t).map(|(_, b)| *b);
    pairs.iter().map(|(t, _)| class(*t).collect()).collect()
}

#[test]
fn classes_are_as_coarse_as_required_and_no_coarser() {
    let mut random = Random::new(15);
    for _ in 0..300 {
        let (n, h) = (random.between(1, 3), random.between(1, 3));
        let (question, rule) = (question(&mut random, n, 3), rule(&mut random, h));
        for_each_choice(&question, &rule, &mut |_, choice| {
            let classes = choice.classes().into_iter();
            let made: BTreeSet<BTreeSet<Apart>> =
                classes.map(|class| class.into_iter().collect()).collect();
            assert_eq!(made, classes_by_chains(choice));
            true
        });
    }
}

/// A piece-unifier by Definition 11 of source document 000: a part of the question, a part
/// of the head, and a partition of their terms.
struct Unifier {
    sent: Vec<bool>,
    partition: Classes,
}

/// Every partition of these terms.
fn partitions(terms: &[Apart]) -> Vec<Classes> {
    let Some((last, before)) = terms.split_last() else {
        return vec![Vec::new()];
    };
    let mut all = Vec::new();
    for partition in partitions(before) {
        for i in 0..partition.len() {
            let mut joined = partition.clone();
            joined[i].push(*last);
            all.push(joined);
        }
        let mut alone = partition;
        alone.push(vec![*last]);
        all.push(alone);
    }
    all
}

/// The items of a list that a number's bits name.
fn picked<T: Clone>(items: &[T], bits: usize) -> Vec<T> {
    let named = items.iter().enumerate().filter(|(i, _)| bits >> i & 1 == 1);
    named.map(|(_, item)| item.clone()).collect()
}

/// An atom's terms replaced by the first of their classes.
fn merged(atom: &Atom, apart: fn(Term) -> Apart, partition: &Classes) -> (usize, Vec<Apart>) {
    let first = |t: Apart| {
        partition
            .iter()
            .find(|c| c.contains(&t))
            .map_or(t, |c| c[0])
    };
    let terms = atom.terms.iter().map(|&t| first(apart(t))).collect();
    (atom.relation, terms)
}

/// Whether this is a piece-unifier: admissible, unknowns only with non-separating
/// variables of the part, and the parts made the same set of atoms.
fn is_unifier(rule: &Rule, part: &[Atom], head: &[Atom], rest: &[Atom], p: &Classes) -> bool {
    let left = variables(rest);
    let sound = |class: &Vec<Apart>| {
        let constants = class.iter().filter(|t| unify::is_constant(t)).count();
        let unknown = |t: &Apart| matches!(t, Apart::OfRule(v) if rule.is_existential(*v));
        let unknowns = class.iter().filter(|t| unknown(t)).count();
        let harmless = |t: &Apart| matches!(t, Apart::OfQuestion(v) if !left.contains(v));
        let others = class.iter().filter(|t| !unknown(t));
        constants <= 1 && (unknowns == 0 || unknowns == 1 && others.clone().all(harmless))
    };
    let sent: BTreeSet<_> = part.iter().map(|a| merged(a, of_question, p)).collect();
    let met: BTreeSet<_> = head.iter().map(|a| merged(a, of_rule, p)).collect();
    p.iter().all(sound) && sent == met
}

/// Every piece-unifier of the question with the rule. The answer record is never sent, so
/// it is of the rest.
fn unifiers(question: &Question, rule: &Rule) -> Vec<Unifier> {
    let (atoms, mut found) = (&question.atoms, Vec::new());
    for bits in 1..1 << atoms.len() {
        for head_bits in 1..1 << rule.head.len() {
            let (part, head) = (picked(atoms, bits), picked(&rule.head, head_bits));
            let mut rest = picked(atoms, !bits);
            rest.extend(ans(question));
            let mut terms: BTreeSet<Apart> = BTreeSet::new();
            terms.extend(
                part.iter()
                    .flat_map(|a| a.terms.iter().map(|&t| of_question(t))),
            );
            terms.extend(
                head.iter()
                    .flat_map(|a| a.terms.iter().map(|&t| of_rule(t))),
            );
            let terms = Vec::from_iter(terms);
            for partition in partitions(&terms) {
                if is_unifier(rule, &part, &head, &rest, &partition) {
                    let sent = (0..atoms.len()).map(|i| bits >> i & 1 == 1).collect();
                    found.push(Unifier { sent, partition });
                }
            }
        }
    }
    found
}

/// The rewriting of Definition 13: u(body) and u(what is left of the question).
fn rewriting_of(question: &Question, rule: &Rule, unifier: &Unifier) -> Question {
    let digits = unifier.sent.iter().map(|&sent| sent as usize).collect();
    let choice = Choice {
        question,
        rule,
        digits,
    };
    choice.rewriting(&unifier.partition)
}

/// The valid choices: which atoms are sent, the classes, and the rewriting.
fn valid_choices(question: &Question, rule: &Rule) -> Vec<(Vec<bool>, Classes, Question)> {
    let mut found = Vec::new();
    for_each_choice(question, rule, &mut |_, choice| {
        let classes = choice.classes();
        if choice.faults(&classes).is_empty() {
            let sent = choice.digits.iter().map(|&digit| digit > 0).collect();
            let rewriting = choice.rewriting(&classes);
            found.push((sent, classes, rewriting));
        }
        true
    });
    found
}

/// A partition as a set of sets.
fn as_sets(classes: &Classes) -> BTreeSet<BTreeSet<Apart>> {
    let sets = classes.iter().map(|class| class.iter().copied().collect());
    sets.collect()
}

#[test]
fn valid_choices_are_piece_unifiers_and_cover_all_the_others() {
    let mut random = Random::new(16);
    let (mut choices, mut published, mut known) = (0, 0, 0);
    for _ in 0..1500 {
        let (n, h) = (random.between(1, 3), random.between(1, 2));
        let question = form(&question(&mut random, n, 2));
        let rule = rule(&mut random, h);
        let (unifiers, valid) = (unifiers(&question, &rule), valid_choices(&question, &rule));
        choices += valid.len();
        known += valid.len() * rule.is_fact() as usize;
        published += unifiers.len();
        for (sent, classes, _) in &valid {
            let same = |u: &Unifier| u.sent == *sent && as_sets(&u.partition) == as_sets(classes);
            assert!(unifiers.iter().any(same), "{question:?} {rule:?}");
        }
        for unifier in &unifiers {
            let rewriting = rewriting_of(&question, &rule, unifier);
            let covered = valid.iter().any(|(_, _, r)| covers(r, &rewriting));
            assert!(covered, "{question:?} {rule:?}");
        }
    }
    assert!(choices > 300 && published > choices && known > 50);
}

/// Sound books with a complete run, and their members.
fn complete_runs(seed: u64, many: usize) -> Vec<(Book, Vec<Question>, usize)> {
    let mut random = Random::new(seed);
    let mut runs = Vec::new();
    while runs.len() < many {
        let book = generate::sound(&mut random);
        if let Outcome::Complete { members, explored } = explore(&book, &mut Seen::default()) {
            runs.push((book, members, explored));
        }
    }
    runs
}

#[test]
fn a_complete_union_is_closed_and_no_member_covers_another() {
    let mut known = 0;
    for (book, members, explored) in complete_runs(31, 1500) {
        assert!(explored <= book.allowed && (1..=64).contains(&members.len()));
        assert!(members.iter().any(|m| covers(m, &book.question)));
        for (i, member) in members.iter().enumerate() {
            assert!(member.atoms.len() <= 8 && *member == form(member));
            assert_eq!(member.answer.len(), book.question.answer.len());
            // No answer variable outside the atoms: without atoms only constants to answer.
            assert!(member.is_bound(), "{member:?}");
            let constant = |t: &Term| t.variable().is_none();
            assert!(!member.is_always() || member.answer.iter().all(constant));
            known += (member.is_always() && member.is_answered()) as usize;
            let others = members.iter().enumerate().filter(|(j, _)| *j != i);
            assert!(others.clone().all(|(_, other)| !covers(other, member)));
            for rule in &book.rules {
                for (_, _, rewriting) in valid_choices(member, rule) {
                    assert!(rewriting.is_bound(), "{rewriting:?}");
                    assert!(members.iter().any(|m| covers(m, &rewriting)));
                }
            }
        }
    }
    assert!(known > 30, "{known}");
}

/// The book with a new relation of one place, which each empty body asks for: what was
/// simply known follows from one fact.
fn from_one_fact(book: &Book) -> (Book, Atom) {
    let (mut book, relation) = (book.clone(), book.relations.len());
    book.relations.push(1);
    for rule in book.rules.iter_mut().filter(|rule| rule.is_fact()) {
        // A variable that no head has.
        rule.body = vec![Atom::new(relation, vec![Term::Variable(99)])];
    }
    let fact = Atom::new(relation, vec![Term::Constant(book.constants)]);
    (book, fact)
}

#[test]
fn an_empty_body_is_as_one_whose_fact_stands_in_every_ledger() {
    let mut random = Random::new(28);
    let (mut rows_met, mut books, mut of_empty) = (0, 0, 0);
    for (book, members, _) in complete_runs(29, 300) {
        let (other, fact) = from_one_fact(&book);
        let there = match explore(&other, &mut Seen::default()) {
            Outcome::Complete { members, .. } if other != book => members,
            _ => continue,
        };
        books += 1;
        for ledger in ledgers(&book, &members, &mut random) {
            let more = [&ledger[..], std::slice::from_ref(&fact)].concat();
            let things: Vec<Term> = (0..book.constants + 2).map(Term::Constant).collect();
            let all = |members: &[Question], facts: &[Atom]| -> BTreeSet<Row> {
                let found = members.iter().flat_map(|m| rows(m, facts, &things));
                found.collect()
            };
            let found = all(&members, &ledger);
            assert_eq!(found, all(&there, &more), "{ledger:?}");
            rows_met += found.len();
            of_empty += found.len() * ledger.is_empty() as usize;
        }
    }
    assert!(
        books > 50 && rows_met > 500 && of_empty > 30,
        "{books} {rows_met} {of_empty}"
    );
}

/// The book with its answer record as the first question atom, of a relation of its own.
fn with_ans_atom(book: &Book) -> Book {
    let (mut book, relation) = (book.clone(), book.relations.len());
    let answer = std::mem::take(&mut book.question.answer);
    book.relations.push(answer.len());
    book.question.atoms.insert(0, Atom::new(relation, answer));
    book
}

/// A member of such a book with its first atom as the answer record.
fn without_ans_atom(member: &Question) -> Question {
    Question {
        answer: member.atoms[0].terms.clone(),
        atoms: member.atoms[1..].to_vec(),
    }
}

#[test]
fn an_answer_record_is_an_atom_of_a_relation_that_no_rule_has() {
    let mut random = Random::new(23);
    let (mut complete, mut refused, mut counted) = (0, 0, 0);
    while complete < 1000 {
        let book = generate::sound(&mut random);
        if !book.question.is_answered() {
            continue;
        }
        let here = explore(&book, &mut Seen::default());
        match (here, explore(&with_ans_atom(&book), &mut Seen::default())) {
            // There the record counts among the eight atoms.
            (_, Outcome::Refused { number: 8, .. }) => counted += 1,
            (
                Outcome::Complete { members, explored },
                Outcome::Complete {
                    members: there,
                    explored: explored_there,
                },
            ) => {
                let there: Vec<Question> = there.iter().map(without_ans_atom).collect();
                assert_eq!((members, explored), (there, explored_there));
                complete += 1;
            }
            (here, there) => {
                assert_eq!(here, there);
                refused += 1;
            }
        }
    }
    assert!(refused > 100 && counted > 20, "{refused} {counted}");
}

/// The Boolean question whether this row is an answer: the row put in for the answer places.
fn put_in(question: &Question, row: &[Term]) -> Option<Question> {
    let mut map = BTreeMap::new();
    for (&from, &to) in question.answer.iter().zip(row) {
        if *map.entry(from).or_insert(to) != to || (from.variable().is_none() && from != to) {
            return None;
        }
    }
    let put = question.map(|t| map.get(&t).copied().unwrap_or(t));
    Some(put.unanswered())
}

#[test]
fn a_row_is_an_answer_exactly_if_the_question_with_the_row_put_in_holds() {
    let mut random = Random::new(26);
    let (mut yes, mut no) = (0, 0);
    for (book, members, _) in complete_runs(25, 600) {
        let ledgers = ledgers(&book, &members, &mut random);
        for ledger in ledgers
            .iter()
            .filter(|_| book.question.is_answered())
            .take(4)
        {
            let mut things = terms(ledger);
            things.push(Term::Constant(book.constants));
            let found = members.iter().flat_map(|m| rows(m, ledger, &things));
            let mut asked: Vec<Row> = found.take(3).collect();
            let places = book.question.answer.iter();
            asked.push(places.map(|_| *random.one_of(&things)).collect());
            for row in asked {
                let here = members.iter().any(|m| holds(m, &row, ledger));
                let Some(question) = put_in(&book.question, &row) else {
                    assert!(!here, "{row:?}");
                    continue;
                };
                let boolean = Book {
                    question,
                    allowed: 1000,
                    ..book.clone()
                };
                if let Outcome::Complete { members, .. } = explore(&boolean, &mut Seen::default()) {
                    let there = members.iter().any(|m| holds(m, &[], ledger));
                    assert_eq!(here, there, "{row:?} {ledger:?}");
                    yes += here as usize;
                    no += !here as usize;
                }
            }
        }
    }
    assert!(yes > 300 && no > 100, "{yes} {no}");
}

#[test]
fn rule_order_changes_no_union_up_to_equivalence() {
    for (book, members, _) in complete_runs(18, 1000) {
        let mut turned = book.clone();
        turned.rules.reverse();
        turned.allowed = 1000;
        let Outcome::Complete { members: other, .. } = explore(&turned, &mut Seen::default())
        else {
            continue;
        };
        assert_eq!(members.len(), other.len());
        for member in &members {
            let partners = other.iter().filter(|o| equivalent(member, o));
            assert_eq!(partners.count(), 1);
        }
    }
}

#[test]
fn the_table_of_choice_counts() {
    assert_eq!(choice_count(4, 8), 390_625);
    assert_eq!(choice_count(1, 0), 1);
    assert_eq!(digits_of(5, 2, 3), [0, 1, 2]);
}
