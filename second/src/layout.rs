//! Where the parts of a stored book stand: its header words and its rules.

use crate::width::Width;

/// The byte in an unused place.
pub const UNUSED: u8 = 255;

/// The relation byte of an answer record.
pub const ANSWER: u8 = 255;

/// The byte of the first constant.
pub const FIRST_CONSTANT: u8 = 128;

/// The header words, and the form that they tell.
pub struct Header {
    pub width: Width,
    pub relations: usize,
    pub constants: usize,
    pub rules: usize,
    pub atoms: usize,
    pub allowed: usize,
    pub relations_at: usize,
    pub rules_at: usize,
    pub question_at: usize,
    pub total: usize,
    /// The tenth word, if the form has one.
    pub places: Option<usize>,
}

/// The form of a book that is long enough to tell it: "The relations' offset, 18 or 20, tells
/// the forms apart."
pub fn width_of(bytes: &[u8]) -> Width {
    match bytes.get(10..12) {
        Some(word) => Width::told_by(u16::from_le_bytes([word[0], word[1]]) as usize),
        None => Width::Four,
    }
}

impl Header {
    /// The header, if the book has one.
    pub fn of(bytes: &[u8]) -> Option<Header> {
        let width = width_of(bytes);
        if bytes.len() < width.header() {
            return None;
        }
        let word = |i: usize| u16::from_le_bytes([bytes[2 * i], bytes[2 * i + 1]]) as usize;
        Some(Header {
            width,
            relations: word(0),
            constants: word(1),
            rules: word(2),
            atoms: word(3),
            allowed: word(4),
            relations_at: word(5),
            rules_at: word(6),
            question_at: word(7),
            total: word(8),
            places: (width.words() > 9).then(|| word(9)),
        })
    }

    /// "The total is the question's offset + 5 x N", in the new form 7 x N; with an answer
    /// record N + 1.
    pub fn total_of(&self, answered: bool) -> usize {
        self.question_at + self.width.atom() * (self.atoms + answered as usize)
    }

    /// Whether an answer record stands before the question's atoms: "N doesn't count it; a
    /// total five larger announces it." In the new form seven larger.
    pub fn is_answered(&self) -> bool {
        self.total == self.total_of(true)
    }

    /// Where the question's atoms stand.
    pub fn question_atoms(&self) -> Vec<usize> {
        let atom = self.width.atom();
        let first = self.question_at + atom * self.is_answered() as usize;
        (0..self.atoms).map(|i| first + atom * i).collect()
    }

    /// Where the rules must begin.
    pub fn rules_begin(&self) -> usize {
        self.width.header() + self.relations
    }
}

/// Where a rule's body atoms and head atoms stand, and where it ends.
pub struct RuleAt {
    pub body: Vec<usize>,
    pub head: Vec<usize>,
    pub end: usize,
}

/// Why there is no rule where one should be.
#[derive(Clone, Copy, Debug, PartialEq, Eq)]
pub enum NoRule {
    /// Its two count bytes do not both fit; so many do.
    NoCounts(usize),
    /// The body's count is not 0 to 4, or the head's not 1 to 4: both.
    Counts(usize, usize),
    /// Its atoms run past the question's offset; so many are the body's.
    Past(usize),
}

/// The rule at this offset, with the question's offset as the limit.
fn rule_at(header: &Header, bytes: &[u8], at: usize) -> Result<RuleAt, NoRule> {
    let (limit, atom) = (header.question_at, header.width.atom());
    let limit_of_bytes = limit.min(bytes.len());
    if at + 2 > limit_of_bytes {
        return Err(NoRule::NoCounts(limit_of_bytes.saturating_sub(at)));
    }
    let (body, head) = (bytes[at] as usize, bytes[at + 1] as usize);
    if body > 4 || !(1..=4).contains(&head) {
        return Err(NoRule::Counts(body, head));
    }
    let head_at = at + 2 + atom * body;
    let end = head_at + atom * head;
    if end > limit {
        return Err(NoRule::Past(body));
    }
    Ok(RuleAt {
        body: (0..body).map(|i| at + 2 + atom * i).collect(),
        head: (0..head).map(|i| head_at + atom * i).collect(),
        end,
    })
}

/// The rules in order up to the first that is none, and that one's offset and reason; or
/// else where the rules end.
pub struct Rules {
    pub found: Vec<RuleAt>,
    pub end: usize,
    pub broken: Option<NoRule>,
}

/// Walks over the rules.
pub fn rules(header: &Header, bytes: &[u8]) -> Rules {
    let mut rules = Rules {
        found: Vec::new(),
        end: header.rules_begin(),
        broken: None,
    };
    for _ in 0..header.rules {
        match rule_at(header, bytes, rules.end) {
            Ok(rule) => {
                rules.end = rule.end;
                rules.found.push(rule);
            }
            Err(why) => {
                rules.broken = Some(why);
                return rules;
            }
        }
    }
    rules
}
