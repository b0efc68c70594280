//! What a run shows, for the count of behaviours. Nothing here changes a run.

use crate::cover::{covers, equivalent};
use crate::explore::{Member, Run, MOST_ATOMS, ROOM};
use crate::form::{distinct, form};
use crate::seen::{Behaviour, Seen};
use crate::term::{occurs, variables, Atom, Question, Rule, Term};
use crate::unify::{choice_count, is_constant, of_question, of_rule, Apart, Choice, Classes};
use crate::width::Width;
use std::collections::BTreeSet;

/// What the book's question shows when its form is taken.
pub fn question(asked: &Question, seen: &mut Seen) {
    let (kept, formed) = (distinct(&asked.atoms), form(asked));
    let fewer = kept.len() < asked.atoms.len();
    seen.mark_if(fewer, Behaviour::QuestionAtomsDropped);
    let renumbered = !kept.into_iter().eq(&formed.atoms);
    seen.mark_if(renumbered, Behaviour::QuestionRenumbered);
    let by_answer = formed.atoms != form(&asked.unanswered()).atoms;
    seen.mark_if(by_answer, Behaviour::NumberedByAnswer);
    answer(&asked.answer, seen);
}

/// What the question's answer record shows.
fn answer(answer: &[Term], seen: &mut Seen) {
    let numbers = [
        Behaviour::AnswerNone,
        Behaviour::AnswerOne,
        Behaviour::AnswerTwo,
        Behaviour::AnswerThree,
        Behaviour::AnswerFour,
    ];
    seen.mark(numbers[answer.len()]);
    let (places, variables) = (answer.len(), variables_in(answer));
    seen.mark_if(variables.len() < places, Behaviour::AnswerConstant);
    let alone = variables.is_empty() && places > 0;
    seen.mark_if(alone, Behaviour::AnswerConstantsAlone);
    let twice = different(&variables) < variables.len();
    seen.mark_if(twice, Behaviour::AnswerTwice);
}

/// The variables among these terms, in order.
fn variables_in(terms: &[Term]) -> Vec<usize> {
    terms.iter().filter_map(Term::variable).collect()
}

/// How many different variables these are.
fn different(variables: &[usize]) -> usize {
    variables.iter().collect::<BTreeSet<_>>().len()
}

/// What the number of choices shows.
pub fn choices(question: &Question, rule: &Rule, seen: &mut Seen) {
    let count = choice_count(rule.head.len(), question.atoms.len());
    let most = count == 390_625;
    seen.mark_if(most, Behaviour::Choices390624);
    let answered = most && question.is_answered();
    seen.mark_if(answered, Behaviour::Choices390624Answered);
}

/// What a valid choice shows.
pub fn valid_choice(choice: &Choice, classes: &Classes, unformed: &Question, seen: &mut Seen) {
    sending(choice, seen);
    unknowns(choice, classes, seen);
    constants(choice, classes, seen);
    let mut body = choice.rule.body.iter().flat_map(|atom| &atom.terms);
    let outside = |t: &Term| t.variable().is_some_and(|v| !occurs(v, &choice.rule.head));
    seen.mark_if(body.any(outside), Behaviour::BodyFresh);
    let fewer = distinct(&unformed.atoms).len() < unformed.atoms.len();
    seen.mark_if(fewer, Behaviour::RewritingAtomsDropped);
    seen.mark_if(choice.pieces(classes) > 1, Behaviour::SeveralPieces);
    answers(&choice.question.answer, &unformed.answer, seen);
    if choice.rule.is_fact() {
        seen.mark(Behaviour::FactMet);
        let others = !choice.left().is_empty();
        seen.mark_if(others, Behaviour::FactMetOthersLeft);
        let answered = choice.question.is_answered();
        seen.mark_if(answered, Behaviour::FactMetAnswered);
    }
}

/// What a step makes of the answer record.
fn answers(before: &[Term], after: &[Term], seen: &mut Seen) {
    let (before, after) = (variables_in(before), variables_in(after));
    let arises = after.len() < before.len();
    seen.mark_if(arises, Behaviour::AnswerConstantArises);
    let joined = !arises && different(&after) < different(&before);
    seen.mark_if(joined, Behaviour::AnswersJoined);
}

/// Which question atoms are sent to which head atoms.
fn sending(choice: &Choice, seen: &mut Seen) {
    let mut used: Vec<usize> = choice.digits.iter().copied().filter(|&d| d > 0).collect();
    let sent = used.len();
    used.sort();
    used.dedup();
    seen.mark_if(sent == 1, Behaviour::OneToOne);
    seen.mark_if(used.len() < sent, Behaviour::ManyToOne);
    seen.mark_if(used.len() > 1, Behaviour::ManyHeads);
    seen.mark_if(sent == choice.digits.len(), Behaviour::AllSent);
    let head = &choice.rule.head;
    seen.mark_if(used.len() < head.len(), Behaviour::HeadAtomUnused);
    let repeated = used.iter().any(|&d| head[..d - 1].contains(&head[d - 1]));
    seen.mark_if(repeated, Behaviour::EqualHeadAtoms);
}

/// Whether unknowns take part.
fn unknowns(choice: &Choice, classes: &Classes, seen: &mut Seen) {
    let unknown = |t: &Apart| choice.is_unknown(t);
    let met = classes.iter().any(|class| class.iter().any(unknown));
    seen.mark_if(met, Behaviour::UnknownMet);
    let mut heads: Vec<&Atom> = choice.sent().iter().map(|(_, head)| *head).collect();
    heads.sort();
    heads.dedup();
    let shared = variables(&choice.rule.head).into_iter().any(|v| {
        let holding = heads
            .iter()
            .filter(|h| h.terms.contains(&Term::Variable(v)));
        choice.rule.is_existential(v) && holding.count() > 1
    });
    seen.mark_if(shared, Behaviour::UnknownShared);
}

/// How constants meet variables.
fn constants(choice: &Choice, classes: &Classes, seen: &mut Seen) {
    for (atom, head) in choice.sent() {
        for (&t, &u) in atom.terms.iter().zip(&head.terms) {
            let (t, u) = (of_question(t), of_rule(u));
            let from_head = is_constant(&u) && !is_constant(&t);
            seen.mark_if(from_head, Behaviour::ConstantFromHead);
            let from_question = is_constant(&t) && !is_constant(&u);
            seen.mark_if(from_question, Behaviour::ConstantFromQuestion);
        }
    }
    let joins = classes.iter().any(|class| {
        let of_question = class.iter().filter(|t| matches!(t, Apart::OfQuestion(_)));
        class.iter().any(is_constant) && of_question.count() > 1
    });
    seen.mark_if(joins, Behaviour::ConstantJoins);
}

/// What a rewriting shows in its form.
pub fn rewriting(new: &Question, seen: &mut Seen) {
    let (many, answered) = (new.atoms.len(), new.is_answered());
    seen.mark_if(many == 11, Behaviour::Rewriting11);
    seen.mark_if(many == 11 && answered, Behaviour::Rewriting11Answered);
    seen.mark_if(many == 0, Behaviour::RewritingAlways);
    let alone = many == 0 && answered;
    seen.mark_if(alone, Behaviour::RewritingAlwaysAnswered);
    let different = variables(&new.atoms).len();
    seen.mark_if(different == 44, Behaviour::Rewriting44);
    seen.mark_if(different == 66, Behaviour::Rewriting66);
    let has = |places: usize| new.atoms.iter().any(|atom| atom.terms.len() == places);
    seen.mark_if(has(4), Behaviour::FourPlaces);
    seen.mark_if(has(5), Behaviour::FivePlacesMet);
    seen.mark_if(has(6), Behaviour::SixPlaces);
}

/// What exploring one member shows: how many rewritings it had, and whether it was removed.
pub fn explored(member: &Question, found: usize, removed: bool, seen: &mut Seen) {
    seen.mark_if(member.is_always(), Behaviour::AlwaysTaken);
    seen.mark_if(found == 0, Behaviour::NoRewriting);
    seen.mark_if(removed, Behaviour::RemovedTaken);
}

/// Why a rewriting is dropped: this is the first member that covers it.
pub fn dropped(members: &[Member], first: usize, new: &Question, seen: &mut Seen) {
    seen.mark_if(first == 0, Behaviour::CoveredByFirst);
    seen.mark_if(first > 0, Behaviour::CoveredByLater);
    seen.mark_if(new.atoms.len() > MOST_ATOMS, Behaviour::CoveredLong);
    let same = equivalent(&members[first].question, new);
    seen.mark_if(same, Behaviour::CoveredEquivalent);
    seen.mark_if(new.is_answered(), Behaviour::CoveredAnswered);
    seen.mark_if(new.is_always(), Behaviour::CoveredAlways);
    let by_always = members[first].question.is_always() && !new.is_always();
    seen.mark_if(by_always, Behaviour::CoveredByAlways);
}

/// What keeps a rewriting from being dropped, or a member from being removed by it, where
/// the atoms alone would be covered.
pub fn uncovered(members: &[Member], new: &Question, seen: &mut Seen) {
    if !new.is_answered() {
        return;
    }
    let by_answer =
        |a: &Question, b: &Question| covers(&a.unanswered(), &b.unanswered()) && !covers(a, b);
    let kept = members.iter().any(|m| by_answer(&m.question, new));
    seen.mark_if(kept, Behaviour::KeptByAnswer);
    // None of the members covers it, so this is for the answer records alone.
    let from_always = members.iter().any(|m| m.question.is_always());
    seen.mark_if(from_always, Behaviour::KeptFromAlways);
    let stays = members.iter().any(|m| by_answer(new, &m.question));
    seen.mark_if(stays, Behaviour::StaysByAnswer);
}

/// Which members a rewriting removes, and how many it leaves.
pub fn removed(removed: &[Member], left: usize, seen: &mut Seen) {
    for member in removed {
        seen.mark_if(member.explored, Behaviour::RemovedExplored);
        seen.mark_if(!member.explored, Behaviour::RemovedUnexplored);
        seen.mark_if(member.arrival == 0, Behaviour::QuestionRemoved);
        let answered = member.question.is_answered();
        seen.mark_if(answered, Behaviour::RemovedAnswered);
    }
    let many = removed.len();
    seen.mark_if(many == 1, Behaviour::RemovedOne);
    seen.mark_if(many > 1, Behaviour::RemovedSeveral);
    let reused = many > 0 && left + many == ROOM;
    seen.mark_if(reused, Behaviour::RoomReused);
}

/// How many members a rewriting without atoms removes, and how many it leaves.
pub fn removed_by(new: &Question, removed: usize, left: usize, seen: &mut Seen) {
    if new.is_always() {
        seen.mark_if(left == 0, Behaviour::RemovedByAlways);
        let some = removed > 0 && left > 0;
        seen.mark_if(some, Behaviour::RemovedByAlwaysSome);
        seen.mark_if(removed == 0, Behaviour::RemovedByAlwaysNone);
    }
}

/// What a member shows when it is appended.
pub fn appended(question: &Question, steps: usize, seen: &mut Seen) {
    seen.mark_if(steps > 0, Behaviour::Appended);
    let full = question.atoms.len() == MOST_ATOMS;
    let variables = variables(&question.atoms).len();
    let (wide, widest_of_all) = (variables == 32, variables == 48);
    let answered = question.is_answered();
    let always = question.is_always();
    seen.mark_if(always, Behaviour::AlwaysMember);
    seen.mark_if(always && answered, Behaviour::AlwaysMemberAnswered);
    let widest = always && question.answer.len() == 4;
    seen.mark_if(widest, Behaviour::AlwaysFourPlaces);
    seen.mark_if(full, Behaviour::FullMember);
    seen.mark_if(full && answered, Behaviour::FullMemberAnswered);
    seen.mark_if(wide, Behaviour::Variables32);
    seen.mark_if(wide && answered, Behaviour::Variables32Answered);
    seen.mark_if(widest_of_all, Behaviour::Variables48);
    seen.mark_if(widest_of_all && answered, Behaviour::Variables48Answered);
}

/// What the end of a run shows.
pub fn end(run: &Run, end: Result<(), usize>, seen: &mut Seen) {
    match end {
        Ok(()) => complete(run, seen),
        Err(number) => refused(run, number, seen),
    }
}

/// What a complete run shows.
fn complete(run: &Run, seen: &mut Seen) {
    let many = run.members.len();
    seen.mark(Behaviour::Complete);
    seen.mark_if(run.arrivals == 1, Behaviour::CompleteAlone);
    seen.mark_if(run.taken == run.book.allowed, Behaviour::CompleteAtL);
    seen.mark_if(many == ROOM, Behaviour::Complete64);
    seen.mark_if(run.taken == 1000, Behaviour::Explored1000);
    seen.mark_if(many < run.taken, Behaviour::CompleteFewer);
    let deep = run.members.iter().any(|m| m.steps >= 5);
    seen.mark_if(deep, Behaviour::CompleteDeep);
    let always = always_among(run);
    seen.mark_if(always == 1 && many == 1, Behaviour::CompleteAlways);
    let among = 0 < always && always < many;
    seen.mark_if(among, Behaviour::CompleteAlwaysAmong);
    seen.mark_if(always > 1, Behaviour::CompleteAlwaysSeveral);
    let answered = run.book.question.is_answered();
    seen.mark_if(answered, Behaviour::CompleteAnswered);
    let new = run.book.width == Width::Six;
    seen.mark_if(new, Behaviour::CompleteNew);
    seen.mark_if(new && answered, Behaviour::CompleteNewAnswered);
    let answers: Vec<&Vec<Term>> = run.members.iter().map(|m| &m.question.answer).collect();
    let differ = answers.iter().any(|answer| *answer != answers[0]);
    seen.mark_if(differ, Behaviour::AnswersDiffer);
}

/// How many members have no atoms.
fn always_among(run: &Run) -> usize {
    let members = run.members.iter();
    members.filter(|m| m.question.is_always()).count()
}

/// What a refused run shows.
fn refused(run: &Run, number: usize, seen: &mut Seen) {
    let (full, first) = (run.members.len() == ROOM, run.taken == 1);
    seen.mark_if(run.taken > 255, Behaviour::RunPlaceOver255);
    seen.mark_if(number == 8, Behaviour::Refusal8);
    seen.mark_if(number == 8 && full, Behaviour::Refusal8AtFull);
    seen.mark_if(number == 8 && first, Behaviour::Refusal8First);
    let again = number == 9 && run.removals > 0;
    seen.mark_if(number == 9, Behaviour::Refusal9);
    seen.mark_if(again, Behaviour::Refusal9AfterRemoval);
    seen.mark_if(number == 10, Behaviour::Refusal10);
    seen.mark_if(number == 10 && first, Behaviour::Refusal10First);
    let beside = number == 9 && always_among(run) > 0;
    seen.mark_if(beside, Behaviour::Refusal9Always);
    let next = run.oldest_unexplored().map(|at| &run.members[at].question);
    let before = number == 10 && next.is_some_and(Question::is_always);
    seen.mark_if(before, Behaviour::Refusal10Always);
    if run.book.width == Width::Six {
        seen.mark_if(number == 8, Behaviour::Refusal8New);
        seen.mark_if(number == 9, Behaviour::Refusal9New);
        seen.mark_if(number == 10, Behaviour::Refusal10New);
    }
    if run.book.question.is_answered() {
        seen.mark_if(number == 8, Behaviour::Refusal8Answered);
        seen.mark_if(number == 9, Behaviour::Refusal9Answered);
        seen.mark_if(number == 10, Behaviour::Refusal10Answered);
    }
}
