//! Refusals 2 to 7 and 11: every (number, place) that applies to a book's bytes.

use crate::layout::{self, Header, NoRule, RuleAt, Rules, ANSWER, UNUSED};
use crate::seen::Behaviour;
use crate::width::{Width, ANSWER_PLACES};

/// A reason to refuse a book: its number, its place, and which part of the reason holds.
#[derive(Clone, Copy, Debug, PartialEq, Eq)]
pub struct Fault {
    pub number: usize,
    pub place: usize,
    pub why: Behaviour,
}

/// A fault of this number at this place.
fn fault(number: usize, place: usize, why: Behaviour) -> Fault {
    Fault { number, place, why }
}

/// The faults of this number at this place whose condition holds.
fn applying(number: usize, place: usize, judged: &[(bool, Behaviour)]) -> Vec<Fault> {
    let holding = judged.iter().filter(|(holds, _)| *holds);
    holding.map(|(_, why)| fault(number, place, *why)).collect()
}

/// "The smallest applicable number among 1 to 7 wins, and within it the earliest place";
/// 11 comes "after 7".
pub fn least(faults: &[Fault]) -> Option<&Fault> {
    faults.iter().min_by_key(|f| (f.number, f.place))
}

/// Every (number, place) among 2 to 7 and 11 that applies, as far as there are bytes to
/// judge.
pub fn faults(bytes: &[u8]) -> Vec<Fault> {
    let Some(header) = Header::of(bytes) else {
        let why = match bytes.len() {
            0 => Behaviour::Empty,
            1..18 => Behaviour::UnderEighteen,
            _ => Behaviour::UnderTwenty,
        };
        return vec![fault(2, 0, why)];
    };
    let rules = layout::rules(&header, bytes);
    let mut faults = table_faults(&header);
    faults.extend(offset_faults(&header, bytes.len()));
    faults.extend(relation_faults(&header, bytes));
    faults.extend(rule_faults(&header, &rules));
    faults.extend(atom_faults(&header, bytes, &rules.found));
    faults.extend(fact_faults(&header, bytes, &rules.found));
    faults.extend(answer_faults(&header, bytes));
    faults.extend(unbound_faults(&header, bytes));
    faults
}

/// Refusal 3: "P, C, R, N or L outside the table", "a tenth word other than 6".
fn table_faults(header: &Header) -> Vec<Fault> {
    let judged = [
        (header.relations < 1, Behaviour::NoRelation),
        (header.relations > 64, Behaviour::ManyRelations),
        (header.constants > 127, Behaviour::ManyConstants),
        (header.rules > 32, Behaviour::ManyRules),
        (header.atoms < 1, Behaviour::NoQuestion),
        (header.atoms > 8, Behaviour::ManyAtoms),
        (header.allowed < 1, Behaviour::NothingAllowed),
        (header.allowed > 1000, Behaviour::MuchAllowed),
        (header.places.is_some_and(|n| n != 6), Behaviour::TenthWord),
    ];
    applying(3, 0, &judged)
}

/// Refusal 4: the offsets and the total, which is that with the answer record or without.
fn offset_faults(header: &Header, length: usize) -> Vec<Fault> {
    let (width, rules_at) = (header.width, header.rules_begin());
    let (without, with) = (header.total_of(false), header.total_of(true));
    let neither = header.total != without && header.total != with;
    let between = without < header.total && header.total < with;
    let cut = |total: usize| neither && header.total == total % 65_536;
    let before = header.question_at < header.rules_at;
    let judged = [
        (
            header.relations_at != width.header(),
            Behaviour::RelationsOffset,
        ),
        (header.rules_at != rules_at, Behaviour::RulesOffset),
        (before, Behaviour::QuestionOffset),
        (neither, Behaviour::Total),
        (between, Behaviour::TotalBetween),
        (header.total == with + width.atom(), Behaviour::TotalTenMore),
        (cut(without), Behaviour::TotalCut),
        (cut(with), Behaviour::TotalCutAnswered),
        (length < header.total, Behaviour::BookShorter),
        (length > header.total, Behaviour::BookLonger),
        (length > 65_535, Behaviour::BookOver65535),
    ];
    applying(4, 0, &judged)
}

/// Refusal 5: "a relation's places not 1 to 4", in the new form 1 to 6, at that byte.
fn relation_faults(header: &Header, bytes: &[u8]) -> Vec<Fault> {
    let mut faults = Vec::new();
    let (first, most) = (header.width.header(), header.width.places());
    let places = bytes[first..].iter().take(header.relations);
    for (i, &places) in places.enumerate() {
        let judged = [
            (places < 1, Behaviour::NoPlaces),
            (places as usize > most && most == 4, Behaviour::FivePlaces),
            (places as usize > most && most == 6, Behaviour::SevenPlaces),
        ];
        faults.extend(applying(5, first + i, &judged));
    }
    faults
}

/// Refusal 6: "a rule's counts not 1 to 4, or the rule runs past the question's offset; or
/// the rules end before that offset", at "the rule's first byte; or where they end"; but
/// "body counts run 0 to 4".
fn rule_faults(header: &Header, rules: &Rules) -> Vec<Fault> {
    let early = rules.end < header.question_at;
    let judged = match rules.broken {
        Some(NoRule::NoCounts(1)) => vec![(true, Behaviour::CountsPastOne)],
        Some(NoRule::NoCounts(_)) => vec![(true, Behaviour::CountsPastNone)],
        Some(NoRule::Past(body)) => vec![
            (true, Behaviour::AtomsPast),
            (body == 0, Behaviour::FactPast),
        ],
        Some(NoRule::Counts(body, head)) => vec![
            (body > 4, Behaviour::BodyLong),
            (head < 1, Behaviour::HeadEmpty),
            (body + head < 1, Behaviour::BothEmpty),
            (head > 4, Behaviour::HeadLong),
        ],
        None => vec![
            (early && header.rules == 0, Behaviour::RulesEndEarlyNone),
            (early && header.rules > 0, Behaviour::RulesEndEarly),
        ],
    };
    applying(6, rules.end, &judged)
}

/// Refusal 7: "a relation number or place byte not allowed", at that byte.
fn atom_faults(header: &Header, bytes: &[u8], rules: &[RuleAt]) -> Vec<Fault> {
    use Behaviour::*;
    let mut faults = Vec::new();
    let mut judge = |at, relation, place| {
        faults.extend(faults_of_atom(header, bytes, at, relation, place));
    };
    for rule in rules {
        for &at in &rule.body {
            judge(at, BadRelationInBody, PlaceInBody);
        }
        for &at in &rule.head {
            judge(at, BadRelationInHead, PlaceInHead);
        }
    }
    for at in header.question_atoms() {
        judge(at, BadRelationInQuestion, PlaceInQuestion);
    }
    let first = bytes.get(header.question_at);
    if !header.is_answered() && first == Some(&ANSWER) {
        faults.push(fault(7, header.question_at, NotAnnounced));
    }
    faults
}

/// Those of refusal 7 that stand in a rule with an empty body, once more for the count.
fn fact_faults(header: &Header, bytes: &[u8], rules: &[RuleAt]) -> Vec<Fault> {
    let facts = rules.iter().filter(|rule| rule.body.is_empty());
    let atoms = facts.flat_map(|fact| &fact.head);
    let why = Behaviour::ByteInFact;
    let judged = atoms.flat_map(|&at| faults_of_atom(header, bytes, at, why, why));
    judged.filter(|fault| fault.why == why).collect()
}

/// Refusal 7 in the answer record: "relation byte 255", "used places first and at least one
/// used", each with what a question atom may hold, and "at most four".
fn answer_faults(header: &Header, bytes: &[u8]) -> Vec<Fault> {
    let at = header.question_at;
    let Some((relation, places)) = answer_record(header, bytes) else {
        return Vec::new();
    };
    let judged = [
        (relation != ANSWER, Behaviour::AnswerRelation),
        (
            (relation as usize) < header.relations,
            Behaviour::AnswerRelationKnown,
        ),
    ];
    let mut faults = applying(7, at, &judged);
    let used = places.iter().take_while(|&&byte| byte != UNUSED).count();
    for (i, &byte) in places.iter().enumerate() {
        if let Some(why) = place_fault(header, byte, i < used.clamp(1, ANSWER_PLACES)) {
            faults.push(fault(7, at + 1 + i, of_answer(why, i)));
        }
    }
    faults
}

/// The relation byte and the places of the answer record, if one is announced and there.
fn answer_record<'b>(header: &Header, bytes: &'b [u8]) -> Option<(u8, &'b [u8])> {
    let at = header.question_at;
    let record = bytes.get(at..at + header.width.atom());
    let record = record.filter(|_| header.is_answered());
    record.map(|record| (record[0], &record[1..]))
}

/// A place byte that is not allowed, as one of the answer record.
fn of_answer(why: Behaviour, place: usize) -> Behaviour {
    match why {
        _ if place == 4 => Behaviour::AnswerFifth,
        _ if place == 5 => Behaviour::AnswerSixth,
        Behaviour::VariableOver31 => Behaviour::AnswerVariableOver31,
        Behaviour::VariableOver47 => Behaviour::AnswerVariableOver47,
        Behaviour::ConstantNotBelowC => Behaviour::AnswerConstantNotBelowC,
        Behaviour::UsedPlace255 => Behaviour::AnswerNoneUsed,
        _ => Behaviour::AnswerGap,
    }
}

/// Refusal 11: "an answer variable in no question atom", at "its byte".
fn unbound_faults(header: &Header, bytes: &[u8]) -> Vec<Fault> {
    let Some((_, places)) = answer_record(header, bytes) else {
        return Vec::new();
    };
    let (atoms, width) = (header.question_atoms().into_iter(), header.width);
    let stands = |byte: &u8| {
        let places = |at| bytes.get(at + 1..at + width.atom());
        let mut atoms = atoms.clone().filter_map(places);
        atoms.any(|places| places.contains(byte))
    };
    let mut faults = Vec::new();
    for (i, byte) in places.iter().enumerate() {
        let unbound = (*byte as usize) < width.variables() && !stands(byte);
        let judged = [
            (unbound && i == 0, Behaviour::UnboundFirst),
            (unbound && i > 0, Behaviour::UnboundLater),
        ];
        faults.extend(applying(11, header.question_at + 1 + i, &judged));
    }
    faults
}

/// The bytes of one atom that are not allowed. With a bad relation number nothing says
/// which places are used, so only that byte is judged.
fn faults_of_atom(
    header: &Header,
    bytes: &[u8],
    at: usize,
    relation: Behaviour,
    place: Behaviour,
) -> Vec<Fault> {
    let Some(atom) = bytes.get(at..at + header.width.atom()) else {
        return Vec::new();
    };
    if atom[0] as usize >= header.relations {
        return vec![fault(7, at, relation)];
    }
    let used = bytes.get(header.width.header() + atom[0] as usize);
    let used = used.map_or(0, |&places| places as usize);
    let mut faults = Vec::new();
    for i in 0..header.width.places() {
        if let Some(why) = place_fault(header, atom[1 + i], i < used) {
            faults.push(fault(7, at + 1 + i, why));
            faults.push(fault(7, at + 1 + i, place));
        }
    }
    faults
}

/// Why this byte is not allowed in a place: "A used place holds 0 to 31 for a variable
/// or 128 to 127 + C for a constant; an unused place holds 255." In the new form "variables
/// run 0 to 47".
fn place_fault(header: &Header, byte: u8, used: bool) -> Option<Behaviour> {
    match (used, byte) {
        (false, 255) => None,
        (false, _) => Some(Behaviour::UnusedPlace),
        (true, 0..=127) if (byte as usize) < header.width.variables() => None,
        (true, 0..=127) => Some(match header.width {
            Width::Four => Behaviour::VariableOver31,
            Width::Six => Behaviour::VariableOver47,
        }),
        (true, 255) => Some(Behaviour::UsedPlace255),
        (true, _) if (byte as usize) < 128 + header.constants => None,
        (true, _) => Some(Behaviour::ConstantNotBelowC),
    }
}
