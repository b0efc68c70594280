//! Comparing the second program with the others in one process.

use crate::limit::{timed, Longest, ALL, BOOK_STEPS};
use crate::output::{Asking, Output, LENT};
use crate::overdue::Notes;
use crate::show::{first_lines, printed, shown};
use crate::shrink::shrunk;
use crate::side::{Side, SECOND};
use crate::Named;
use second::budget::within;
use second::layout::width_of;
use second::seen::Seen;
use second::union;
use second::width::{Width, WIDTHS};
use std::time::{Duration, Instant};

/// A comparison so far: what was met, and what each took.
pub struct Comparison<'s> {
    sides: &'s [Side],
    pub seen: Seen,
    pub compared: usize,
    /// How many of the books are edge books.
    pub edges: usize,
    /// On how many the second program gave up: there the others are compared with each other.
    pub passed_over: usize,
    /// How many edge books were compared by none.
    pub left_out: usize,
    /// The steps that the second program may take for the book at hand; 0 once it gave up.
    steps: u64,
    /// The first side's longest call.
    pub longest: Longest<String>,
    /// And the one under way.
    notes: Notes,
    /// How many of the books have another form, which was compared too.
    pub in_both_forms: usize,
    /// What the second program took, then each side.
    pub spent: Vec<Duration>,
    pub slowest: (Duration, String),
}

impl<'s> Comparison<'s> {
    /// Nothing compared yet.
    pub fn new(sides: &'s [Side]) -> Comparison<'s> {
        Comparison::limited(sides, None)
    }

    /// The same, with the most processor time that a call of the first side may take.
    pub fn limited(sides: &'s [Side], most: Option<Duration>) -> Comparison<'s> {
        Comparison {
            sides,
            seen: Seen::default(),
            compared: 0,
            edges: 0,
            passed_over: 0,
            left_out: 0,
            steps: ALL,
            longest: Longest::within(most),
            notes: Notes::default(),
            in_both_forms: 0,
            spent: vec![Duration::ZERO; 1 + sides.len()],
            slowest: (Duration::ZERO, String::new()),
        }
    }

    /// Compares all on the books; the first difference, told.
    pub fn compare(&mut self, books: &[Named]) -> Result<(), String> {
        self.compare_within(ALL, books)
    }

    /// The same on edge books, where the second program may give up.
    pub fn compare_edges(&mut self, books: &[Named]) -> Result<(), String> {
        self.edges += books.len();
        self.compare_within(BOOK_STEPS, books)
    }

    /// Counts edge books that are compared by none.
    pub fn leave_out(&mut self, many: usize) {
        self.edges += many;
        self.left_out += many;
    }

    /// The same where the second program takes no more than so many steps for a book.
    fn compare_within(&mut self, steps: u64, books: &[Named]) -> Result<(), String> {
        for (name, bytes) in books {
            self.steps = steps;
            self.compare_one(name, bytes)?;
            self.passed_over += (self.steps == 0) as usize;
        }
        Ok(())
    }

    /// Compares all on one book, its run and its copies, and on its other form if it has one.
    fn compare_one(&mut self, name: &str, bytes: &[u8]) -> Result<(), String> {
        let ran = self.asked(Asking::Run, LENT, name, bytes)?;
        for wanted in WIDTHS {
            let copy = self.copied(wanted, name, bytes)?;
            if copy.answered.0 == 0 && copy.written() != bytes {
                self.compare_forms(name, bytes, &ran, copy.written(), wanted)?;
            }
        }
        self.compared += 1;
        Ok(())
    }

    /// Compares all on a book's copy into a form, with just enough room, with too little and
    /// with more.
    fn copied(&mut self, wanted: Width, name: &str, bytes: &[u8]) -> Result<Output, String> {
        let asking = Asking::Copy(wanted);
        for room in [asking.room() - 1, asking.room()] {
            self.asked(asking, room, name, bytes)?;
        }
        self.asked(asking, LENT, name, bytes)
    }

    /// Compares all on the other form of a book, of this width: it runs alike, and back it is
    /// the book.
    fn compare_forms(
        &mut self,
        name: &str,
        bytes: &[u8],
        ran: &Output,
        other: &[u8],
        width: Width,
    ) -> Result<(), String> {
        let name = format!("{name} in its other form");
        // With no more room than is asked for.
        let theirs = self.asked(Asking::Run, Asking::Run.room(), &name, other)?;
        if !are_alike(ran, width_of(bytes), &theirs, width) {
            return Err(format!(
                "NOT ALIKE: {name} runs otherwise\n{}",
                shown(bytes)
            ));
        }
        let back = self.asked(Asking::Copy(width.other()), LENT, &name, other)?;
        if back.written() != bytes {
            return Err(format!(
                "NOT ALIKE: {name} comes back otherwise\n{}",
                shown(bytes)
            ));
        }
        self.in_both_forms += 1;
        Ok(())
    }

    /// Asks all the same of a book in so much room; what they say. Each is compared with the second
    /// program or, if that gave up, with the first of the others.
    fn asked(
        &mut self,
        asking: Asking,
        room: usize,
        name: &str,
        bytes: &[u8],
    ) -> Result<Output, String> {
        let second = self.second_says(asking, room, name, bytes);
        let mut said = second.map(|output| (SECOND, output));
        let sides = self.sides;
        for (number, side) in sides.iter().enumerate() {
            let theirs = self.side_says(number, asking, room, name, bytes)?;
            match &said {
                None => said = Some((*side, theirs)),
                Some((_, mine)) if *mine == theirs => (),
                Some((one, _)) => return Err(difference(one, side, asking, room, name, bytes)),
            }
        }
        match said {
            None => Err(format!("nobody says anything of {name}")),
            Some((who, output)) if !output.leaves_the_rest() => {
                Err(format!("{} touches too much on {name}", who.name))
            }
            Some((_, output)) => Ok(output),
        }
    }

    /// What the second program says; nothing if it gave up, now or on the same book before. What it
    /// met before it gave up was not compared, and does not count.
    fn second_says(
        &mut self,
        asking: Asking,
        room: usize,
        name: &str,
        bytes: &[u8],
    ) -> Option<Output> {
        let (start, mut seen) = (Instant::now(), Seen::default());
        let steps = match asking {
            Asking::Run => self.steps,
            Asking::Copy(_) => ALL,
        };
        let said = within(steps, || Output::of_second(asking, bytes, room, &mut seen));
        self.took(0, start, name);
        match said.is_some() {
            true => self.seen.add(&seen),
            false => self.steps = 0,
        }
        said
    }

    /// What the side of this number says; too late is an error.
    fn side_says(
        &mut self,
        number: usize,
        asking: Asking,
        room: usize,
        name: &str,
        bytes: &[u8],
    ) -> Result<Output, String> {
        let (start, side) = (Instant::now(), self.sides[number]);
        let call = || timed(|| Output::of(&side, asking, bytes, room));
        if number > 0 {
            let (theirs, _) = call();
            self.took(1 + number, start, name);
            return Ok(theirs);
        }
        let book = (name.to_string(), bytes.to_vec());
        let told = move || format!("{} on {}\n{}", side.name, book.0, shown(&book.1));
        let (theirs, took) = self.notes.during(Box::new(told.clone()), call);
        self.took(1, start, name);
        let late = |what| format!("{what}: {}", told());
        self.longest.count(took, || name.into()).map_err(late)?;
        Ok(theirs)
    }

    /// Counts what one of them took since the start.
    fn took(&mut self, number: usize, start: Instant, name: &str) {
        let took = start.elapsed();
        self.spent[number] += took;
        if took > self.slowest.0 {
            self.slowest = (took, name.into());
        }
    }

    /// Adds what another one has.
    pub fn add(&mut self, other: &Comparison) {
        self.seen.add(&other.seen);
        self.compared += other.compared;
        self.edges += other.edges;
        self.passed_over += other.passed_over;
        self.left_out += other.left_out;
        self.longest.add(&other.longest);
        self.in_both_forms += other.in_both_forms;
        for (mine, theirs) in self.spent.iter_mut().zip(&other.spent) {
            *mine += *theirs;
        }
        if other.slowest.0 > self.slowest.0 {
            self.slowest = other.slowest.clone();
        }
    }

    /// A line with what each took for a thousand books.
    pub fn times(&self) -> String {
        let names = self.sides.iter().map(|side| side.name);
        let each = [SECOND.name].into_iter().chain(names);
        let took = |(name, spent): (&str, &Duration)| {
            let seconds = spent.as_secs_f64() * 1000.0 / self.compared as f64;
            format!("{name} {seconds:.3} s")
        };
        let times: Vec<String> = each.zip(&self.spent).map(took).collect();
        format!("a thousand books take {}", times.join(", "))
    }
}

/// Whether the second program answers an edge book, and does not give up.
pub fn answered(book: &[u8]) -> bool {
    within(BOOK_STEPS, || printed(book)).is_some()
}

/// Whether two runs are of one book in two forms: the same refusal at the same place, or the same
/// count and the same members but for the bytes of unused places.
fn are_alike(one: &Output, width: Width, other: &Output, other_width: Width) -> bool {
    match (one.answered, other.answered) {
        ((0, _), (0, _)) => {
            union::read(one.written(), width) == union::read(other.written(), other_width)
        }
        (refused, also) => refused == also,
    }
}

/// What two say of a book; nothing if the second program, for which this is as on an edge book,
/// gives up on it.
fn both(
    [one, other]: [&Side; 2],
    asking: Asking,
    room: usize,
    bytes: &[u8],
) -> Option<(Output, Output)> {
    let mine = within(SMALLER_STEPS, || Output::of(one, asking, bytes, room))?;
    Some((mine, Output::of(other, asking, bytes, room)))
}

/// The steps that the second program may take for a smaller book: as many as for any ordinary one,
/// but a book that is smaller need not be quicker.
const SMALLER_STEPS: u64 = 300 * BOOK_STEPS;

/// A difference between two, on as small a book as can be found.
fn difference(
    one: &Side,
    other: &Side,
    asking: Asking,
    room: usize,
    name: &str,
    bytes: &[u8],
) -> String {
    let both = |bytes: &[u8]| both([one, other], asking, room, bytes);
    let differ = |bytes: &Vec<u8>| both(bytes).is_some_and(|(mine, theirs)| mine != theirs);
    let small = shrunk(bytes, |smaller| smaller.iter().position(differ));
    let (words, shown) = (asking.words(), shown(&small));
    let told = format!("DIFFERENCE on {name}, {words} in {room} bytes, made smaller:\n{shown}");
    let Some((mine, theirs)) = both(&small) else {
        return format!("{told}{} gave up on it", one.name);
    };
    let union = within(SMALLER_STEPS, || first_lines(&printed(&small)));
    format!(
        "{told}{}: {}\n{}{}: {}\n",
        one.name,
        mine.told_beside(&theirs),
        union.unwrap_or_default(),
        other.name,
        theirs.told_beside(&mine),
    )
}
