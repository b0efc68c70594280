//! The behaviours of the build paper by name, and a count of how often each was met.
//! The generator must meet every one of them.

use std::fmt::Write;

macro_rules! behaviours {
    ($($name:ident => $words:expr,)*) => {
        /// A behaviour that a book can show.
        #[derive(Clone, Copy, Debug, PartialEq, Eq)]
        pub enum Behaviour { $($name,)* }

        /// Every behaviour with its name in words.
        pub const BEHAVIOURS: &[(Behaviour, &str)] = &[$((Behaviour::$name, $words),)*];
    };
}

behaviours! {
    OutputTooSmall => "1: output under 4,104 bytes",
    CopyTooSmall => "1: room for a copy under 2,003 bytes",
    Empty => "2: no byte at all",
    UnderEighteen => "2: some bytes, under 18",
    UnderTwenty => "2: a new book of 18 or 19 bytes",
    NoRelation => "3: P is 0",
    ManyRelations => "3: P over 64",
    ManyConstants => "3: C over 127",
    ManyRules => "3: R over 32",
    NoQuestion => "3: N is 0",
    ManyAtoms => "3: N over 8",
    NothingAllowed => "3: L is 0",
    MuchAllowed => "3: L over 1,000",
    TenthWord => "3: the tenth word not 6",
    RelationsOffset => "4: relations' offset not 18, nor 20",
    RulesOffset => "4: rules' offset not 18 + P, or 20 + P",
    QuestionOffset => "4: question's offset below the rules'",
    Total => "4: total neither with an answer record nor without",
    TotalBetween => "4: total between that without an answer record and that with one",
    TotalTenMore => "4: total with room for two answer records",
    TotalCut => "4: total right only when cut to 16 bits",
    TotalCutAnswered => "4: total with an answer record, right only when cut to 16 bits",
    BookShorter => "4: book shorter than its total",
    BookLonger => "4: book longer than its total",
    BookOver65535 => "4: book longer than 65,535 bytes",
    NoPlaces => "5: a relation of 0 places",
    FivePlaces => "5: a relation of over 4 places in an old book",
    SevenPlaces => "5: a relation of over 6 places in a new book",
    BodyLong => "6: body count over 4",
    HeadEmpty => "6: head count 0",
    BothEmpty => "6: body and head counts 0",
    HeadLong => "6: head count over 4",
    CountsPastNone => "6: a rule with no byte left",
    CountsPastOne => "6: a rule with one byte left",
    AtomsPast => "6: a rule's atoms run past",
    FactPast => "6: the atoms of a rule with an empty body run past",
    RulesEndEarly => "6: the rules end before the question",
    RulesEndEarlyNone => "6: no rules, and they end before the question",
    BadRelationInBody => "7: relation number in a body",
    BadRelationInHead => "7: relation number in a head",
    BadRelationInQuestion => "7: relation number in the question",
    VariableOver31 => "7: a used place with 32 to 127 in an old book",
    VariableOver47 => "7: a used place with 48 to 127 in a new book",
    ConstantNotBelowC => "7: a used place with a constant not below C",
    UsedPlace255 => "7: a used place with 255",
    UnusedPlace => "7: an unused place without 255",
    PlaceInBody => "7: a place in a body",
    PlaceInHead => "7: a place in a head",
    ByteInFact => "7: a byte in a rule with an empty body",
    PlaceInQuestion => "7: a place in the question",
    NotAnnounced => "7: relation byte 255 before the question's atoms, not announced",
    AnswerRelation => "7: an announced answer record, relation byte not 255",
    AnswerRelationKnown => "7: an announced answer record, one of the book's relations",
    AnswerNoneUsed => "7: an answer record without a used place",
    AnswerGap => "7: an answer record with a used place after an unused one",
    AnswerFifth => "7: an answer record's fifth place not 255",
    AnswerSixth => "7: an answer record's sixth place not 255",
    AnswerVariableOver31 => "7: an answer place with 32 to 127 in an old book",
    AnswerVariableOver47 => "7: an answer place with 48 to 127 in a new book",
    AnswerConstantNotBelowC => "7: an answer place with a constant not below C",
    SevenBeforeEleven => "7 where 11 would come too",
    UnboundFirst => "11: the first answer place, its variable in no question atom",
    UnboundLater => "11: a later answer place, its variable in no question atom",
    NoOldFormPlaces => "13: a relation of over 4 places",
    NoOldFormVariable => "13: a variable above 31",
    NoOldFormBoth => "13: a relation of over 4 places before a variable above 31",
    CopiedAsItIs => "copied: a book in the wanted form",
    CopiedToNew => "copied: an old book to the new form",
    CopiedToOld => "copied: a new book to the old form",
    CompetingNumbers => "two refusal numbers apply",
    CompetingPlaces => "two places apply for one number",
    QuestionAtomsDropped => "form: equal question atoms dropped",
    QuestionRenumbered => "form: question variables renumbered",
    NumberedByAnswer => "form: numbered from the answer record on, otherwise than from the atoms",
    RewritingAtomsDropped => "form: equal atoms of a rewriting dropped",
    AnswerNone => "asked without answer places",
    AnswerOne => "asked with one answer place",
    AnswerTwo => "asked with two answer places",
    AnswerThree => "asked with three answer places",
    AnswerFour => "asked with four answer places",
    AnswerConstant => "asked with a constant in an answer place",
    AnswerConstantsAlone => "asked with constants alone in the answer places",
    AnswerTwice => "asked with one variable in two answer places",
    TwoConstants => "invalid: a class with two constants",
    UnknownConstant => "invalid: an unknown with a constant",
    UnknownFrontier => "invalid: an unknown with a frontier variable",
    UnknownUnknown => "invalid: an unknown with a second unknown",
    UnknownLeft => "invalid: an unknown with a variable of a left atom",
    UnknownAnswer => "invalid: an unknown with an answer variable of no left atom",
    UnknownAnswerAlone => "invalid: for its answer variables alone",
    UnknownAnswerOfFact => "invalid: for its answer variables alone, the body empty",
    OneToOne => "valid: one atom sent",
    ManyToOne => "valid: several atoms sent to one head atom",
    ManyHeads => "valid: several head atoms used",
    AllSent => "valid: no atom left",
    HeadAtomUnused => "valid: a head atom to which nothing is sent",
    UnknownMet => "valid: a class with an unknown",
    UnknownShared => "valid: an unknown in two head atoms that are used",
    ConstantFromHead => "valid: a head constant meets a question variable",
    ConstantFromQuestion => "valid: a question constant meets a rule variable",
    ConstantJoins => "valid: two question variables meet through one constant",
    BodyFresh => "valid: a body variable outside the head",
    EqualHeadAtoms => "valid: sent to a head atom equal to an earlier one",
    SeveralPieces => "valid: several pieces at once",
    AnswerConstantArises => "valid: an answer variable becomes a constant",
    AnswersJoined => "valid: two answer variables become one",
    FactMet => "valid: the body empty",
    FactMetOthersLeft => "valid: the body empty, some atoms left",
    FactMetAnswered => "valid: the body empty, beside an answer record",
    Choices390624 => "choices: 390,624 of them",
    Choices390624Answered => "choices: 390,624 of them beside an answer record",
    Rewriting11 => "a rewriting of 11 atoms",
    Rewriting11Answered => "a rewriting of 11 atoms and an answer record",
    Rewriting44 => "a rewriting of 44 variables",
    Rewriting66 => "a rewriting of 66 variables",
    RewritingAlways => "a rewriting without atoms",
    RewritingAlwaysAnswered => "a rewriting without atoms, but with an answer record",
    NoRewriting => "a member without any rewriting",
    CoveredByFirst => "dropped: the first member covers it",
    CoveredByLater => "dropped: a later member covers it",
    CoveredLong => "dropped: over 8 atoms, yet covered",
    CoveredEquivalent => "dropped: equivalent to a member",
    CoveredAnswered => "dropped: with an answer record",
    CoveredByAlways => "dropped: a member without atoms covers its atoms",
    CoveredAlways => "dropped: a rewriting without atoms",
    KeptFromAlways => "not dropped: a member without atoms has another answer record",
    KeptByAnswer => "not dropped: a member's atoms cover it, but not with its answer record",
    StaysByAnswer => "not removed: its atoms are covered, but not with its answer record",
    Appended => "appended",
    RemovedOne => "one member removed",
    RemovedSeveral => "several members removed",
    RemovedExplored => "an explored member removed",
    RemovedUnexplored => "an unexplored member removed",
    RemovedTaken => "the member taken up is removed, and its exploration stops",
    RemovedAnswered => "a member with an answer record removed",
    RemovedByAlways => "every member removed by a rewriting without atoms",
    RemovedByAlwaysSome => "some members removed by a rewriting without atoms, others not",
    RemovedByAlwaysNone => "no member removed by a rewriting without atoms",
    RoomReused => "room freed by removals used again at 64 members",
    QuestionRemoved => "the first member removed",
    Refusal8 => "refusal 8",
    Refusal8AtFull => "refusal 8 where 9 would come too",
    Refusal8First => "refusal 8, one question taken up",
    Refusal9 => "refusal 9",
    Refusal9AfterRemoval => "64 members once more after a removal, then refusal 9",
    Refusal10 => "refusal 10",
    Refusal10First => "refusal 10 at 1",
    Refusal8New => "refusal 8 of a new book",
    Refusal9New => "refusal 9 of a new book",
    Refusal10New => "refusal 10 of a new book",
    Refusal8Answered => "refusal 8 with an answer record",
    Refusal9Answered => "refusal 9 with an answer record",
    Refusal10Answered => "refusal 10 with an answer record",
    Refusal9Always => "refusal 9 with members without atoms",
    Refusal10Always => "refusal 10 before a member without atoms",
    AlwaysTaken => "a member without atoms taken up",
    Complete => "complete",
    CompleteAlone => "complete: the question alone",
    CompleteAtL => "complete with exactly L taken up",
    Complete64 => "complete with 64 members",
    CompleteDeep => "complete, a member five steps from the question",
    CompleteFewer => "complete with fewer members than explored",
    CompleteNew => "complete: a new book",
    CompleteNewAnswered => "complete: a new book, members with answer records",
    CompleteAnswered => "complete: members with answer records",
    AnswersDiffer => "complete: members with different answer records",
    CompleteAlways => "complete: a member without atoms alone",
    CompleteAlwaysAmong => "complete: a member without atoms among others",
    CompleteAlwaysSeveral => "complete: several members without atoms",
    AlwaysMember => "a member without atoms",
    AlwaysMemberAnswered => "a member without atoms, but with an answer record",
    AlwaysFourPlaces => "a member without atoms and four answer places",
    FullMember => "a member of 8 atoms",
    FullMemberAnswered => "a member of 8 atoms and an answer record",
    Variables32 => "a member of 32 variables",
    Variables32Answered => "a member of 32 variables and an answer record",
    Variables48 => "a member of 48 variables",
    Variables48Answered => "a member of 48 variables and an answer record",
    FourPlaces => "an atom of 4 places",
    FivePlacesMet => "an atom of 5 places",
    SixPlaces => "an atom of 6 places",
    Relations64 => "limit: 64 relations",
    Constants127 => "limit: 127 constants",
    Rules32 => "limit: 32 rules",
    Rules0 => "limit: no rules",
    Facts => "a rule with an empty body",
    FactOfFour => "limit: a rule with an empty body and four head atoms",
    Facts32 => "limit: 32 rules with empty bodies",
    Question8 => "limit: 8 question atoms",
    Allowed1 => "limit: L is 1",
    Allowed1000 => "limit: L is 1,000",
    Explored1000 => "limit: complete with 1,000 questions taken up",
    LargestBooleanUnion => "limit: the largest union of an old book without answers, 2,632 bytes",
    LargestOldUnion => "limit: the largest union of an old book, 2,952 bytes",
    LargestBooleanNewUnion => "limit: the largest union without answers, 3,656 bytes",
    LargestUnion => "limit: the largest union, 4,104 bytes",
    SmallestUnion => "limit: the smallest union, 9 bytes",
    RunPlaceOver255 => "limit: a refusal of the run at a place over 255",
    BookPlaceOver255 => "limit: a refusal of the book at a place over 255",
    LargestBoolean => "limit: the largest old book without an answer record, 1,466 bytes",
    LargestOld => "limit: the largest old book, 1,471 bytes",
    LargestBook => "limit: the largest book, 2,003 bytes",
    SmallestBook => "limit: the smallest book, 24 bytes",
    SmallestNew => "limit: the smallest new book, 28 bytes",
}

/// How often each behaviour was met.
#[derive(Clone)]
pub struct Seen {
    counts: Vec<u64>,
}

impl Default for Seen {
    fn default() -> Seen {
        Seen {
            counts: vec![0; BEHAVIOURS.len()],
        }
    }
}

impl Seen {
    /// Counts one meeting.
    pub fn mark(&mut self, behaviour: Behaviour) {
        self.counts[behaviour as usize] += 1;
    }

    /// Counts one meeting where the condition holds.
    pub fn mark_if(&mut self, condition: bool, behaviour: Behaviour) {
        if condition {
            self.mark(behaviour);
        }
    }

    /// How often this one was met.
    pub fn count(&self, behaviour: Behaviour) -> u64 {
        self.counts[behaviour as usize]
    }

    /// Adds the meetings of another count.
    pub fn add(&mut self, other: &Seen) {
        for (mine, theirs) in self.counts.iter_mut().zip(&other.counts) {
            *mine += theirs;
        }
    }

    /// The names of the behaviours that were not met.
    pub fn missing(&self) -> Vec<&'static str> {
        let unmet = BEHAVIOURS.iter().filter(|(b, _)| self.count(*b) == 0);
        unmet.map(|(_, words)| *words).collect()
    }

    /// A line for each behaviour with its count.
    pub fn table(&self) -> String {
        let mut text = String::new();
        for (behaviour, words) in BEHAVIOURS {
            writeln!(text, "{:>10}  {}", self.count(*behaviour), words).unwrap();
        }
        text
    }
}
