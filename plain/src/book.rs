//! Reading a stored book, and refusals 5 to 7 and 11. Each is looked for in the whole book
//! before the next: the smallest number wins, and within it the earliest place.

use crate::atom::{
    is_variable, record_length, variables, Atom, ANSWER, ANSWER_PLACES, FIRST_CONSTANT, RELATIONS,
    TERMS, UNUSED,
};
use crate::form::{Form, MEMBER_ATOMS};
use crate::header::Header;
use crate::rule::{Rule, RULE_ATOMS};
use crate::Answer;
use std::cell::OnceCell;
use std::ops::Range;

/// A rule of a sound book. It is made ready when it is first met: in a large book most never
/// are.
struct Stored<'b, const W: usize> {
    body: &'b [u8],
    head: &'b [u8],
    ready: OnceCell<Rule<W>>,
}

/// A sound book whose atoms have room for W places.
pub struct Book<'b, const W: usize> {
    rules: Vec<Stored<'b, W>>,
    /// For each relation the rules that have it in their heads, as bits.
    pub by_head: [u32; RELATIONS],
    /// The form of the question.
    pub question: Form<W>,
    /// Explorations allowed.
    pub allowed: usize,
}

/// The bytes of a book with a sound header.
pub struct Reading<'b, const W: usize> {
    book: &'b [u8],
    pub header: Header<W>,
    /// For each byte if it is a term of this book.
    terms: [bool; TERMS],
}

impl<'b, const W: usize> Book<'b, W> {
    /// The book in these bytes, or its refusal.
    pub fn read(book: &'b [u8]) -> Result<Book<'b, W>, Answer> {
        Reading::judged(book).map(|reading| reading.decode())
    }

    /// A rule, made ready.
    pub fn rule(&self, number: usize) -> &Rule<W> {
        let Stored { body, head, ready } = &self.rules[number];
        ready.get_or_init(|| Rule::of(body, head))
    }
}

/// The places of a record.
fn places_of<const W: usize>(record: &[u8]) -> &[u8; W] {
    record[1..record_length(W)].try_into().unwrap()
}

/// Which bytes are terms: the variables and the book's constants.
fn terms_of<const W: usize>(header: &Header<W>) -> [bool; TERMS] {
    let (mut terms, first) = ([false; TERMS], FIRST_CONSTANT as usize);
    terms[..variables(W)].fill(true);
    terms[first..first + header.constants].fill(true);
    terms
}

impl<'b, const W: usize> Reading<'b, W> {
    /// The bytes of a sound book, or its refusal.
    pub fn judged(book: &'b [u8]) -> Result<Reading<'b, W>, Answer> {
        let header = Header::of(book)?;
        let terms = terms_of(&header);
        let reading = Reading {
            book,
            header,
            terms,
        };
        reading.judge_relations()?;
        reading.judge_rules()?;
        reading.judge_atoms()?;
        reading.judge_answer_variables()?;
        Ok(reading)
    }

    /// Where the rules of a book stand whose refusal is not 6, their counts first.
    pub fn rules(&self) -> impl Iterator<Item = Range<usize>> + '_ {
        let mut at = self.header.rules_at();
        std::iter::from_fn(move || {
            let from = at;
            (from < self.header.question_at).then(|| {
                at = self.rule_end(from);
                from..at
            })
        })
    }

    /// The first byte of a sound book that is a relation's number of places above so many, or
    /// else a variable that is not below so many.
    pub fn first_beyond(&self, places: usize, variables: usize) -> Option<usize> {
        let high = variables as u8..FIRST_CONSTANT;
        let is_high = |&at: &usize| high.contains(&self.book[at]);
        let is_wide = |&at: &usize| self.book[at] as usize > places;
        let mut relations = Header::<W>::LENGTH..self.header.rules_at();
        let records = |from: usize, to: usize| (from..to).step_by(record_length(W));
        let in_rules = self
            .rules()
            .flat_map(|rule| records(rule.start + 2, rule.end));
        let mut all = in_rules
            .chain(records(self.header.question_at, self.book.len()))
            .flat_map(|at| at + 1..at + record_length(W));
        relations.find(is_wide).or_else(|| all.find(is_high))
    }

    /// Refusal 5: a relation's places out of bounds.
    fn judge_relations(&self) -> Result<(), Answer> {
        let first = Header::<W>::LENGTH;
        let places = &self.book[first..self.header.rules_at()];
        let bad = |&places: &u8| !(1..=W).contains(&(places as usize));
        match places.iter().position(bad) {
            Some(at) => Err(Answer::new(5, first + at)),
            None => Ok(()),
        }
    }

    /// Refusal 6: a rule's counts out of bounds, a rule that runs past the question's offset,
    /// rules that end before it.
    fn judge_rules(&self) -> Result<(), Answer> {
        let limit = self.header.question_at;
        let mut at = self.header.rules_at();
        for _ in 0..self.header.rules {
            let past = at + 2 > limit;
            if past || !self.has_counts(at) || self.rule_end(at) > limit {
                return Err(Answer::new(6, at));
            }
            at = self.rule_end(at);
        }
        match at < limit {
            true => Err(Answer::new(6, at)),
            false => Ok(()),
        }
    }

    /// Whether the rule there has 0 to 4 atoms in its body and 1 to 4 in its head.
    fn has_counts(&self, at: usize) -> bool {
        let (body, head) = self.counts(at);
        body <= RULE_ATOMS && (1..=RULE_ATOMS).contains(&head)
    }

    /// The numbers of body and head atoms of the rule there.
    fn counts(&self, at: usize) -> (usize, usize) {
        (self.book[at] as usize, self.book[at + 1] as usize)
    }

    /// Where the rule there ends.
    fn rule_end(&self, at: usize) -> usize {
        let (body, head) = self.counts(at);
        at + 2 + record_length(W) * (body + head)
    }

    /// Refusal 7: a byte of an atom or of the answer record that is not allowed.
    fn judge_atoms(&self) -> Result<(), Answer> {
        for rule in self.rules() {
            self.judge_atoms_in(rule.start + 2, rule.end)?;
        }
        if self.header.answered {
            self.judge_answer(self.header.question_at)?;
        }
        self.judge_atoms_in(self.header.atoms_at(), self.book.len())
    }

    /// Refusal 7 in the atoms from one offset to another.
    fn judge_atoms_in(&self, from: usize, to: usize) -> Result<(), Answer> {
        for (i, atom) in self.book[from..to]
            .chunks_exact(record_length(W))
            .enumerate()
        {
            let at = from + record_length(W) * i;
            if atom[0] as usize >= self.header.relations {
                return Err(Answer::new(7, at));
            }
            let used = self.book[Header::<W>::LENGTH + atom[0] as usize] as usize;
            self.judge_places(at + 1, places_of(atom), used)?;
        }
        Ok(())
    }

    /// Refusal 7 in the answer record: its first place is used, and no fifth.
    fn judge_answer(&self, at: usize) -> Result<(), Answer> {
        let record = &self.book[at..at + record_length(W)];
        if record[0] != ANSWER {
            return Err(Answer::new(7, at));
        }
        let places = places_of(record);
        let used = places.iter().take_while(|&&term| term != UNUSED).count();
        self.judge_places(at + 1, places, used.clamp(1, ANSWER_PLACES))
    }

    /// Refusal 7 in places of which so many are used. All are judged before it is asked which
    /// is bad, since mostly none is.
    #[inline]
    fn judge_places(&self, at: usize, places: &[u8; W], used: usize) -> Result<(), Answer> {
        let is_sound = |place: usize| match place < used {
            true => self.terms[places[place] as usize],
            false => places[place] == UNUSED,
        };
        if (0..W).fold(true, |sound, place| sound & is_sound(place)) {
            return Ok(());
        }
        let bad = (0..W).position(|place| !is_sound(place));
        bad.map_or(Ok(()), |place| Err(Answer::new(7, at + place)))
    }

    /// Refusal 11: an answer variable that stands in no question atom.
    fn judge_answer_variables(&self) -> Result<(), Answer> {
        let answer = self.answer();
        let stands = |term: u8| {
            self.question_atoms()
                .any(|atom| atom.terms().any(|t| t == term))
        };
        let loose = |term: u8| is_variable(term) && !stands(term);
        match answer.terms().position(loose) {
            Some(place) => Err(Answer::new(11, self.header.question_at + 1 + place)),
            None => Ok(()),
        }
    }

    /// The answer record, or none.
    fn answer(&self) -> Atom<W> {
        match self.header.answered {
            true => Atom::of(&self.book[self.header.question_at..]),
            false => Atom::NONE,
        }
    }

    /// The question's atoms.
    fn question_atoms(&self) -> impl Iterator<Item = Atom<W>> + '_ {
        let bytes = &self.book[self.header.atoms_at()..];
        bytes.chunks_exact(record_length(W)).map(Atom::of)
    }

    /// The book, given that nothing is wrong with it.
    fn decode(&self) -> Book<'b, W> {
        let mut rules = Vec::with_capacity(self.header.rules);
        let mut by_head = [0; RELATIONS];
        for rule in self.rules() {
            let (body, _) = self.counts(rule.start);
            let atoms = &self.book[rule.start + 2..rule.end];
            let (body, head) = atoms.split_at(record_length(W) * body);
            for atom in head.chunks_exact(record_length(W)) {
                by_head[atom[0] as usize] |= 1 << rules.len();
            }
            rules.push(Stored {
                body,
                head,
                ready: OnceCell::new(),
            });
        }
        let mut atoms = [Atom::NONE; MEMBER_ATOMS];
        let question = self.question_atoms();
        atoms
            .iter_mut()
            .zip(question)
            .for_each(|(to, atom)| *to = atom);
        Book {
            rules,
            by_head,
            question: Form::of(self.answer(), &atoms[..self.header.atoms]),
            allowed: self.header.allowed,
        }
    }
}
