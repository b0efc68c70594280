//! The shapes of generated books: how many of what, and how often.

/// What books of one kind look like. Pairs are the least and the most.
pub struct Shape {
    pub relations: (usize, usize),
    pub places: &'static [usize],
    pub constants: (usize, usize),
    pub rules: (usize, usize),
    pub body: &'static [usize],
    pub head: &'static [usize],
    pub question: &'static [usize],
    pub rule_variables: (usize, usize),
    pub question_variables: (usize, usize),
    /// In a hundred: places with a constant in bodies, heads and the question.
    pub constants_in: (usize, usize, usize),
    /// In a hundred: atoms that repeat an earlier one of their conjunction.
    pub repeats: usize,
    /// In a hundred: questions that begin with a rule's head.
    pub heads_asked: usize,
    /// Whether a rule's body has only later relations than its head, so that no rule can
    /// be used for ever.
    pub layered: bool,
    /// In a hundred: rules with an empty body, whatever `body` says.
    pub facts: usize,
}

/// Rules with one body atom and few relations: long explorations that end.
const LINEAR: Shape = Shape {
    relations: (2, 6),
    places: &[1, 1, 2, 2],
    constants: (0, 2),
    rules: (0, 6),
    body: &[1],
    head: &[1, 1, 2],
    question: &[1, 2, 2, 3],
    rule_variables: (1, 3),
    question_variables: (1, 3),
    constants_in: (0, 8, 15),
    repeats: 4,
    heads_asked: 20,
    layered: false,
    facts: 4,
};

/// Heads of several atoms that share unknowns.
const UNKNOWNS: Shape = Shape {
    relations: (2, 4),
    places: &[1, 2, 2, 2],
    constants: (0, 1),
    rules: (1, 3),
    body: &[1, 1, 1, 2],
    head: &[1, 2, 2, 3],
    question: &[1, 2, 3, 3, 4],
    rule_variables: (2, 5),
    question_variables: (2, 4),
    constants_in: (0, 3, 6),
    repeats: 6,
    heads_asked: 60,
    layered: false,
    facts: 6,
};

/// One or two relations, few variables: many atoms meet many.
const RINGS: Shape = Shape {
    relations: (1, 2),
    places: &[2],
    constants: (0, 1),
    rules: (1, 2),
    body: &[1, 1, 2],
    head: &[1, 2, 3],
    question: &[2, 3, 3, 4],
    rule_variables: (2, 4),
    question_variables: (2, 4),
    constants_in: (2, 2, 5),
    repeats: 5,
    heads_asked: 40,
    layered: false,
    facts: 5,
};

/// Constants everywhere, and bodies more general than heads: removals.
const GENERAL: Shape = Shape {
    relations: (2, 4),
    places: &[1, 1, 2],
    constants: (1, 3),
    rules: (2, 8),
    body: &[1, 1, 1, 1, 2],
    head: &[1, 1, 2],
    question: &[1, 2, 2, 3],
    rule_variables: (1, 4),
    question_variables: (1, 3),
    constants_in: (10, 45, 60),
    repeats: 3,
    heads_asked: 30,
    layered: false,
    facts: 4,
};

/// Atoms of three and four places.
const WIDE: Shape = Shape {
    relations: (2, 4),
    places: &[1, 2, 3, 4, 4],
    constants: (0, 3),
    rules: (1, 4),
    body: &[1, 1, 2],
    head: &[1, 2, 2],
    question: &[1, 2, 3],
    rule_variables: (2, 8),
    question_variables: (2, 8),
    constants_in: (4, 8, 12),
    repeats: 4,
    heads_asked: 50,
    layered: false,
    facts: 6,
};

/// Bodies of several atoms: questions grow, and refusal 8 comes.
const GROWING: Shape = Shape {
    relations: (2, 5),
    places: &[1, 2, 2],
    constants: (1, 3),
    rules: (1, 4),
    body: &[1, 2, 3, 4],
    head: &[1, 1, 2, 4],
    question: &[1, 2, 4, 6],
    rule_variables: (2, 5),
    question_variables: (2, 5),
    constants_in: (5, 5, 40),
    repeats: 4,
    heads_asked: 40,
    layered: false,
    facts: 6,
};

/// Word lists: many rules with unary relations and constants in the question, so that
/// unions fill up.
const WORDS: Shape = Shape {
    relations: (5, 10),
    places: &[1],
    constants: (2, 4),
    rules: (8, 32),
    body: &[1],
    head: &[1],
    question: &[2, 2, 3, 3],
    rule_variables: (1, 1),
    question_variables: (1, 2),
    constants_in: (0, 4, 80),
    repeats: 2,
    heads_asked: 0,
    layered: false,
    facts: 1,
};

/// Many relations, rules and atoms, of which few meet.
const LARGE: Shape = Shape {
    relations: (10, 64),
    places: &[1, 1, 2, 3, 4],
    constants: (0, 127),
    rules: (10, 32),
    body: &[1, 1, 2, 3, 4],
    head: &[1, 1, 2, 3, 4],
    question: &[3, 5, 6, 7, 8],
    rule_variables: (1, 12),
    question_variables: (4, 31),
    constants_in: (10, 5, 10),
    repeats: 3,
    heads_asked: 30,
    layered: false,
    facts: 5,
};

/// Layers of relations with unknowns and constants: unions with many members, many steps
/// from the question, and runs that end.
const LAYERS: Shape = Shape {
    relations: (6, 14),
    places: &[1, 1, 2, 2, 2],
    constants: (1, 3),
    rules: (5, 14),
    body: &[1, 1, 1, 2],
    head: &[1, 1, 1, 2, 3],
    question: &[1, 2, 2, 3],
    rule_variables: (1, 4),
    question_variables: (1, 3),
    constants_in: (2, 3, 45),
    repeats: 3,
    heads_asked: 30,
    layered: true,
    facts: 5,
};

/// Things simply known, mostly of named things, beside a few rules: members without atoms,
/// alone and with answers.
const KNOWN: Shape = Shape {
    relations: (2, 4),
    places: &[1, 1, 2],
    constants: (1, 3),
    rules: (1, 6),
    body: &[1, 1, 2],
    head: &[1, 1, 1, 2],
    question: &[1, 1, 1, 2, 2, 3],
    rule_variables: (1, 3),
    question_variables: (1, 3),
    constants_in: (5, 60, 15),
    repeats: 4,
    heads_asked: 30,
    layered: false,
    facts: 50,
};

/// The shapes, those that are quick and telling more often: a book of rings or of the growing
/// shape takes as long as ten of most others.
pub const SHAPES: &[&Shape] = &[
    &LINEAR, &LINEAR, &LINEAR, &LINEAR, &LINEAR, &LINEAR, &UNKNOWNS, &UNKNOWNS, &UNKNOWNS,
    &UNKNOWNS, &RINGS, &GENERAL, &GENERAL, &GENERAL, &GENERAL, &GENERAL, &WIDE, &WIDE, &WIDE,
    &WIDE, &GROWING, &WORDS, &LARGE, &LAYERS, &LAYERS, &LAYERS, &LAYERS, &KNOWN, &KNOWN, &KNOWN,
    &KNOWN, &KNOWN,
];
