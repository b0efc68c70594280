//! How to explore: as the paper says, or by one of its wrong shortcuts or as one of its
//! impostors. Those are here to be caught, by tests and by the comparer.

use crate::cover;
use crate::seen::{Behaviour, Seen};
use crate::term::{Question, Rule};
use crate::unify::{Choice, Classes};

/// A way to explore.
#[derive(Clone, Copy, Debug, PartialEq, Eq)]
pub enum Way {
    /// As the paper says.
    Right,
    /// "One piece at a time": the old way.
    OnePiece,
    /// "Covering turned round".
    CoveringTurned,
    /// "Testing a separating variable against the unified atoms instead of the left ones."
    UnifiedTested,
    /// "Treating an unknown as a constant or a frontier variable".
    UnknownPlain,
    /// The member taken up is explored to its end although it was removed.
    NotStopped,
    /// Refusal 9 judged before the removals.
    RoomNotFreed,
    /// Covering that looks at the atoms alone and not at the answer records.
    AnswerNotSent,
    /// An answer variable let into an unknown's class, as if the record were not left.
    AnswerNotLeft,
    /// The answer record counted among the eight atoms.
    AnswerCounted,
    /// Rules with an empty body left out, as if there were nothing to rewrite with.
    FactsUnused,
    /// Covering that begins at the first atom's candidates: a question without atoms has
    /// none, and covers nothing.
    FirstAtomAsked,
    /// A member without atoms that covers all, whatever its answer record.
    AlwaysForAll,
    /// A member without atoms not taken up, since it has no rewriting.
    AlwaysNotTaken,
    /// An impostor "that explores the first member and merely counts the others".
    FirstOnly,
    /// An impostor that always gives "only the question".
    QuestionOnly,
}

/// Every wrong way with the word by which commands name it.
pub const WRONG_WAYS: &[(&str, Way)] = &[
    ("--old-way", Way::OnePiece),
    ("--covering-turned", Way::CoveringTurned),
    ("--unified-tested", Way::UnifiedTested),
    ("--unknown-plain", Way::UnknownPlain),
    ("--not-stopped", Way::NotStopped),
    ("--room-not-freed", Way::RoomNotFreed),
    ("--answer-not-sent", Way::AnswerNotSent),
    ("--answer-not-left", Way::AnswerNotLeft),
    ("--answer-counted", Way::AnswerCounted),
    ("--facts-unused", Way::FactsUnused),
    ("--first-atom-asked", Way::FirstAtomAsked),
    ("--always-for-all", Way::AlwaysForAll),
    ("--always-not-taken", Way::AlwaysNotTaken),
    ("--first-only", Way::FirstOnly),
    ("--question-only", Way::QuestionOnly),
];

impl Way {
    /// The way that this word names; the right one if it names none.
    pub fn named(word: Option<&str>) -> Way {
        let known = WRONG_WAYS.iter().find(|(w, _)| Some(*w) == word);
        known.map_or(Way::Right, |(_, way)| *way)
    }

    /// Whether one question covers another.
    pub fn covers(self, a: &Question, b: &Question) -> bool {
        match self {
            Way::CoveringTurned => cover::covers(b, a),
            Way::AnswerNotSent => cover::covers(&a.unanswered(), &b.unanswered()),
            Way::FirstAtomAsked => !a.is_always() && cover::covers(a, b),
            Way::AlwaysForAll => a.is_always() || cover::covers(a, b),
            _ => cover::covers(a, b),
        }
    }

    /// How many atoms of a question count for the limit of eight.
    pub fn counted(self, question: &Question) -> usize {
        let more = self == Way::AnswerCounted && question.is_answered();
        question.atoms.len() + more as usize
    }

    /// The classes of the choice if it is valid.
    pub fn valid(self, choice: &Choice, seen: &mut Seen) -> Option<Classes> {
        let classes = choice.classes();
        let faults = self.faults(choice, &classes);
        faults.iter().for_each(|fault| seen.mark(*fault));
        let by_answer = |fault: &Behaviour| *fault == Behaviour::UnknownAnswer;
        let alone = !faults.is_empty() && faults.iter().all(by_answer);
        seen.mark_if(alone, Behaviour::UnknownAnswerAlone);
        let of_fact = alone && choice.rule.is_fact();
        seen.mark_if(of_fact, Behaviour::UnknownAnswerOfFact);
        let one = self != Way::OnePiece || choice.pieces(&classes) == 1;
        (faults.is_empty() && one).then_some(classes)
    }

    /// What is wrong with a choice.
    fn faults(self, choice: &Choice, classes: &Classes) -> Vec<Behaviour> {
        let mut faults = match self {
            Way::UnifiedTested => choice.faults_against(classes, &[], &choice.unified()),
            Way::AnswerNotLeft => choice.faults_against(classes, &[], &choice.left()),
            _ => choice.faults(classes),
        };
        if self == Way::UnknownPlain {
            faults.retain(|fault| *fault == Behaviour::TwoConstants);
        }
        faults
    }

    /// Whether a rule is tried at all.
    pub fn tries(self, rule: &Rule) -> bool {
        self != Way::FactsUnused || !rule.is_fact()
    }

    /// Whether a member is ever taken up.
    pub fn takes_up(self, member: &Question) -> bool {
        self != Way::AlwaysNotTaken || !member.is_always()
    }

    /// Whether the member that was taken up as this one in number is explored.
    pub fn explores(self, taken: usize) -> bool {
        match self {
            Way::FirstOnly => taken == 1,
            Way::QuestionOnly => false,
            _ => true,
        }
    }

    /// Whether exploring a member stops once it is removed.
    pub fn stops_when_removed(self) -> bool {
        self != Way::NotStopped
    }

    /// Whether room freed by removals is used again.
    pub fn frees_room(self) -> bool {
        self != Way::RoomNotFreed
    }
}
