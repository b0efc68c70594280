//! A union that can be walked: members, atoms, terms.

use crate::width::Width;

/// The relation byte of an answer record.
const ANSWER: u8 = 255;

/// The byte of an unused place.
pub(crate) const UNUSED: u8 = 255;

/// The byte of the first constant.
const FIRST_CONSTANT: u8 = 128;

/// Where the first member stands: after four words.
const HEADER: usize = 8;

/// A whole union, as a complete run wrote it. It prints as the printing program prints it.
#[derive(Clone, Debug, PartialEq, Eq)]
pub struct Union {
    bytes: Vec<u8>,
    width: Width,
}

impl Union {
    /// The union in these bytes, which a complete run of a book of this width wrote.
    pub(crate) fn written(bytes: Vec<u8>, width: Width) -> Union {
        Union { bytes, width }
    }

    /// How many places its atoms have room for: as many as the book's.
    pub fn width(&self) -> Width {
        self.width
    }

    /// The header word of this number.
    fn word(&self, number: usize) -> usize {
        u16::from_le_bytes([self.bytes[2 * number], self.bytes[2 * number + 1]]).into()
    }

    /// How many questions were explored.
    pub fn explored(&self) -> usize {
        self.word(1)
    }

    /// The members in order of arrival.
    pub fn members(&self) -> Members<'_> {
        Members {
            left: self.word(0),
            rest: &self.bytes[HEADER..],
            width: self.width,
        }
    }

    /// The union as the build paper has it written.
    pub fn as_bytes(&self) -> &[u8] {
        &self.bytes
    }
}

/// The members of a union, one by one.
#[derive(Clone, Debug)]
pub struct Members<'u> {
    left: usize,
    rest: &'u [u8],
    width: Width,
}

impl<'u> Iterator for Members<'u> {
    type Item = Member<'u>;

    fn next(&mut self) -> Option<Member<'u>> {
        self.left = self.left.checked_sub(1)?;
        // Behind a count stands an atom, an answer record, or the next member's count, which
        // is at most 8: only an answer record begins with 255.
        let answered = self.rest.get(1) == Some(&ANSWER);
        let records = usize::from(self.rest[0]) + usize::from(answered);
        let (record, rest) = self.rest.split_at(1 + self.width.atom() * records);
        self.rest = rest;
        Some(Member {
            record,
            width: self.width,
        })
    }

    fn size_hint(&self) -> (usize, Option<usize>) {
        (self.left, Some(self.left))
    }
}

impl ExactSizeIterator for Members<'_> {}

/// A member of a union: a question. It holds, or gives a row, wherever its atoms hold.
#[derive(Clone, Copy, Debug, PartialEq, Eq)]
pub struct Member<'u> {
    record: &'u [u8],
    width: Width,
}

impl<'u> Member<'u> {
    /// The terms to answer with; none if the question asks for yes or no.
    pub fn answer(&self) -> Terms<'u> {
        let (answer, _) = self.parts();
        Terms::of(answer)
    }

    /// The atoms. A member without any holds in every ledger, the empty one too.
    pub fn atoms(&self) -> impl ExactSizeIterator<Item = Atom<'u>> + Clone {
        let (_, atoms) = self.parts();
        let atom = self.width.atom();
        atoms.chunks_exact(atom).map(|bytes| Atom { bytes })
    }

    /// The member as a record that the search desk takes, with the union's width.
    pub fn as_record(&self) -> &'u [u8] {
        self.record
    }

    /// The answer record, or nothing, and the atoms.
    fn parts(&self) -> (&'u [u8], &'u [u8]) {
        let records = &self.record[1..];
        let answered = records.first() == Some(&ANSWER);
        records.split_at(if answered { self.width.atom() } else { 0 })
    }
}

/// An atom: a relation with one to four terms, in a union of width six one to six.
#[derive(Clone, Copy, Debug, PartialEq, Eq)]
pub struct Atom<'u> {
    bytes: &'u [u8],
}

impl<'u> Atom<'u> {
    /// The relation's number in the book.
    pub fn relation(&self) -> u8 {
        self.bytes[0]
    }

    /// The terms in its places.
    pub fn terms(&self) -> Terms<'u> {
        Terms::of(self.bytes)
    }
}

/// The terms in the used places of an atom or an answer record.
#[derive(Clone, Debug)]
pub struct Terms<'u> {
    places: &'u [u8],
}

impl<'u> Terms<'u> {
    /// The terms of this atom or answer record, which may be missing.
    fn of(record: &'u [u8]) -> Terms<'u> {
        let places = record.get(1..).unwrap_or_default();
        let used = places.iter().take_while(|&&byte| byte != UNUSED).count();
        Terms {
            places: &places[..used],
        }
    }
}

impl Iterator for Terms<'_> {
    type Item = Term;

    fn next(&mut self) -> Option<Term> {
        let (&byte, rest) = self.places.split_first()?;
        self.places = rest;
        Some(Term::of(byte))
    }

    fn size_hint(&self) -> (usize, Option<usize>) {
        (self.places.len(), Some(self.places.len()))
    }
}

impl ExactSizeIterator for Terms<'_> {}

/// A term: a variable or a constant.
#[derive(Clone, Copy, Debug, PartialEq, Eq, PartialOrd, Ord, Hash)]
pub enum Term {
    /// A variable by its number, which is its member's own.
    Variable(u8),
    /// A constant by its number in the book.
    Constant(u8),
}

impl Term {
    /// The term that the byte of a used place is.
    pub(crate) fn of(byte: u8) -> Term {
        match byte.checked_sub(FIRST_CONSTANT) {
            None => Term::Variable(byte),
            Some(number) => Term::Constant(number),
        }
    }
}
