//! Making a book on which two programs differ small enough to read.

use second::book::{self, Book};
use second::copying::{to_old, BOOK_ROOM};
use second::seen::Seen;
use second::term::{variables, Atom, Rule, Term};
use second::width::Width;

/// Makes a book smaller while the programs still differ on it. `differing` answers with the
/// first of some smaller books on which they do.
pub fn shrunk(bytes: &[u8], differing: impl Fn(&[Vec<u8>]) -> Option<usize>) -> Vec<u8> {
    let mut now = bytes.to_vec();
    loop {
        let mut smaller = smaller_bytes(&now);
        match differing(&smaller) {
            Some(at) => now = smaller.swap_remove(at),
            None => return now,
        }
    }
}

/// Bytes that are a little smaller than these: of a sound book sound ones, else the bytes
/// with a part taken out.
pub fn smaller_bytes(bytes: &[u8]) -> Vec<Vec<u8>> {
    match book::read(bytes, &mut Seen::default()) {
        Ok(book) => smaller(&book).iter().map(book::write).collect(),
        Err(_) => without_parts(bytes),
    }
}

/// The bytes without one part, large parts first. Of very long bytes only large parts.
fn without_parts(bytes: &[u8]) -> Vec<Vec<u8>> {
    let mut all = Vec::new();
    let length = bytes.len();
    for part in [length / 2, length / 8, 12, 7, 5, 2, 1] {
        let few = part > 0 && (length < 400 || part > length / 10);
        for at in (0..length).step_by(part.max(1)).filter(|_| few) {
            let end = (at + part).min(length);
            all.push([&bytes[..at], &bytes[end..]].concat());
        }
    }
    all
}

/// Books that are a little smaller than this one, the most smaller first.
pub fn smaller(book: &Book) -> Vec<Book> {
    let mut books = Vec::new();
    books.extend(without_rules(book));
    books.extend(without_atoms(book));
    books.extend(without_answer_places(book));
    books.extend(with_fewer_variables(book));
    books.extend(without_relations(book));
    books.extend(without_constants(book));
    books.extend(in_old_form(book));
    books
}

/// In the old form, if it is new and has one.
fn in_old_form(book: &Book) -> Option<Book> {
    let has_one = || to_old(&book::write(book), &mut [0; BOOK_ROOM]).number == 0;
    let is_new = book.width == Width::Six && has_one();
    is_new.then(|| with(book, |b| b.width = Width::Four))
}

/// The book changed in place.
fn with(book: &Book, change: impl FnOnce(&mut Book)) -> Book {
    let mut book = book.clone();
    change(&mut book);
    book
}

/// Without one of the rules.
fn without_rules(book: &Book) -> Vec<Book> {
    (0..book.rules.len())
        .map(|i| with(book, |b| drop(b.rules.remove(i))))
        .collect()
}

/// Without one atom of the question, a head or a body. Of the question none that an answer
/// variable needs.
fn without_atoms(book: &Book) -> Vec<Book> {
    let mut books = Vec::new();
    if book.question.atoms.len() > 1 {
        let without = |i| with(book, |b| drop(b.question.atoms.remove(i)));
        let shorter = (0..book.question.atoms.len()).map(without);
        books.extend(shorter.filter(|b| b.question.is_bound()));
    }
    for (r, rule) in book.rules.iter().enumerate() {
        if rule.head.len() > 1 {
            let without = |i| with(book, |b| drop(b.rules[r].head.remove(i)));
            books.extend((0..rule.head.len()).map(without));
        }
        let without = |i| with(book, |b| drop(b.rules[r].body.remove(i)));
        books.extend((0..rule.body.len()).map(without));
    }
    books
}

/// Without one of the answer places.
fn without_answer_places(book: &Book) -> Vec<Book> {
    (0..book.question.answer.len())
        .map(|i| {
            with(book, |b| {
                b.question.answer.remove(i);
            })
        })
        .collect()
}

/// With two variables of a rule or of the question made one.
fn with_fewer_variables(book: &Book) -> Vec<Book> {
    let mut books = Vec::new();
    for (v, w) in pairs(&book.question.atoms) {
        let question = book.question.map(|t| replaced(t, v, w));
        books.push(with(book, |b| b.question = question));
    }
    for (r, rule) in book.rules.iter().enumerate() {
        let atoms: Vec<Atom> = rule.body.iter().chain(&rule.head).cloned().collect();
        for (v, w) in pairs(&atoms) {
            let one = |atom: &mut Atom| *atom = atom.map(|t| replaced(t, v, w));
            books.push(with(book, |b| each_of_rule(&mut b.rules[r], one)));
        }
    }
    books
}

/// Pairs of different variables, the greater first.
fn pairs(atoms: &[Atom]) -> Vec<(usize, usize)> {
    let found: Vec<usize> = variables(atoms).into_iter().collect();
    let mut pairs = Vec::new();
    for (i, &w) in found.iter().enumerate() {
        pairs.extend(found[i + 1..].iter().map(|&v| (v, w)));
    }
    pairs
}

/// The term, or another variable in its place if it is this one.
fn replaced(term: Term, from: usize, to: usize) -> Term {
    match term == Term::Variable(from) {
        true => Term::Variable(to),
        false => term,
    }
}

/// Every atom of a rule, to be changed.
fn each_of_rule(rule: &mut Rule, change: impl FnMut(&mut Atom)) {
    rule.body.iter_mut().chain(&mut rule.head).for_each(change);
}

/// Every atom of the book, to be changed.
fn each_atom(book: &mut Book, mut change: impl FnMut(&mut Atom)) {
    for rule in &mut book.rules {
        each_of_rule(rule, &mut change);
    }
    book.question.atoms.iter_mut().for_each(change);
}

/// Every term of the book, to be changed.
fn each_term(book: &mut Book, mut change: impl FnMut(&mut Term)) {
    each_atom(book, |atom| atom.terms.iter_mut().for_each(&mut change));
    book.question.answer.iter_mut().for_each(change);
}

/// Without one relation that stands nowhere.
fn without_relations(book: &Book) -> Vec<Book> {
    let mut used = vec![false; book.relations.len()];
    each_atom(&mut book.clone(), |atom| used[atom.relation] = true);
    let unused = (0..used.len()).filter(|&r| !used[r] && used.len() > 1);
    unused
        .map(|r| {
            with(book, |b| {
                b.relations.remove(r);
                each_atom(b, |atom| atom.relation -= (atom.relation > r) as usize);
            })
        })
        .collect()
}

/// Without one constant that stands nowhere.
fn without_constants(book: &Book) -> Vec<Book> {
    let mut used = vec![false; book.constants];
    each_term(&mut book.clone(), |term| {
        if let Term::Constant(c) = term {
            used[*c] = true;
        }
    });
    let lower = |gone: usize, term: &mut Term| match term {
        Term::Constant(c) if *c > gone => *c -= 1,
        _ => (),
    };
    (0..used.len())
        .filter(|&c| !used[c])
        .map(|gone| {
            with(book, |b| {
                b.constants -= 1;
                each_term(b, |term| lower(gone, term));
            })
        })
        .collect()
}
