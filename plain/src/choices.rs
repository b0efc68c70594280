//! The choices of one rule on one question, built up atom by atom in ascending order.

use crate::bits::bits;
use crate::classes::Classes;
use crate::members::{Members, Stop};
use crate::options::{Asked, Options};
use crate::rule::Rule;
use crate::seen::{Seen, State};
use crate::target::Target;

/// After so many steps with one rule on one question it pays to remember states.
const MANY_STEPS: usize = 64;

/// With no more options than these it is quicker to go through the choices that are left than
/// to ask first if all of them are covered.
const FEW_OPTIONS: u32 = 3;

/// What a run works with, made once and used again.
pub struct Workshop<const W: usize> {
    pub members: Members<W>,
    pub classes: Classes,
    pub target: Target<W>,
    pub seen: Seen,
    /// How many times a rule had its turn.
    pub turns: u32,
}

/// Choices being built.
struct Choices<'a, const W: usize> {
    asked: &'a Asked<W>,
    rule: &'a Rule<W>,
    work: &'a mut Workshop<W>,
    /// The relations of the question and the body.
    relations: u64,
    /// The members whose relations are among them, as bits. Only these cover rewritings.
    near: u64,
    /// Whether sending one atom can keep others from being sent.
    clashes: bool,
    steps: usize,
}

/// A choice as far as it is made.
#[derive(Clone, Copy)]
struct Prefix {
    /// What can be done with the atoms that are not decided.
    options: Options,
    /// The left atoms, as bits.
    left: u16,
    /// The relations of the left atoms and the body.
    relations: u64,
    /// Whether an atom is sent.
    sent: bool,
}

/// Admits the rewritings of all choices, in order.
pub fn admit_all<const W: usize>(
    asked: &Asked<W>,
    rule: &Rule<W>,
    work: &mut Workshop<W>,
) -> Result<(), Stop> {
    let options = Options::of(asked, rule);
    if options.0 == 0 {
        return Ok(());
    }
    work.turns += 1;
    work.classes.say_of_rule(&rule.said);
    let relations = asked.relations | rule.relations;
    let near = work.members.among(relations);
    let start = Prefix {
        options,
        left: 0,
        relations: rule.relations,
        sent: false,
    };
    let mut choices = Choices {
        asked,
        rule,
        work,
        relations,
        near,
        clashes: rule.has_unknowns || rule.has_constants || asked.has_constants,
        steps: 0,
    };
    let end = choices.start(start);
    work.classes.undo(0);
    end
}

impl<const W: usize> Choices<'_, W> {
    /// Holds the answer variables, for the answer record is always left, leaves the atoms that
    /// no head atom can meet, and goes on.
    fn start(&mut self, mut prefix: Prefix) -> Result<(), Stop> {
        self.work.classes.leave(self.asked.form.answer);
        let stuck = self.asked.all() & !prefix.options.atoms();
        self.leave_all(stuck, &mut prefix);
        match self.look_ahead(&mut prefix) && prefix.options.0 != 0 {
            true => self.go_on(prefix),
            false => Ok(()),
        }
    }

    /// Leaves these atoms; false if no valid choice does. Where there are no unknowns nothing
    /// needs to be held from them.
    #[inline]
    fn leave_all(&mut self, atoms: u16, prefix: &mut Prefix) -> bool {
        prefix.left |= atoms;
        bits(atoms as u64).all(|at| {
            let atom = self.asked.atoms()[at];
            prefix.relations |= atom.relation_bit();
            !self.rule.has_unknowns || self.work.classes.leave(atom)
        })
    }

    /// Takes away options that are not valid any more, and leaves the atoms that thereby have
    /// none; false if no valid choice goes on from here.
    fn look_ahead(&mut self, prefix: &mut Prefix) -> bool {
        if !self.clashes {
            return true;
        }
        let before = prefix.options.atoms();
        for at in bits(before as u64) {
            let atom = self.asked.atoms()[at];
            for d in bits(prefix.options.heads(at) as u64) {
                if !self.work.classes.can_send(atom, self.rule.head()[d]) {
                    prefix.options = prefix.options.without_head(at, d);
                }
            }
        }
        let stuck = before & !prefix.options.atoms();
        stuck == 0 || self.leave_all(stuck, prefix)
    }

    /// Goes on from a prefix, unless its state was gone through before: then whatever comes of
    /// it is a rewriting that was dropped or admitted, and one that was is covered by some
    /// member ever after, since a member goes only for one that covers it.
    fn go_on(&mut self, prefix: Prefix) -> Result<(), Stop> {
        self.steps += 1;
        if self.steps < MANY_STEPS {
            return self.try_out(prefix);
        }
        let state = self.state(prefix);
        if !self.work.seen.has(&state) {
            self.try_out(prefix)?;
            self.work.seen.remember(&state);
        }
        Ok(())
    }

    /// Goes on from a prefix, unless it is covered.
    ///
    /// If a member covers what is left so far and the body, by the classes so far, it covers
    /// the rewriting of every choice that goes on from here: there more is left and classes
    /// are only made coarser, so a map takes all that is here to what is there. All those
    /// rewritings would be dropped, for covering is asked before anything else, and dropping
    /// has no effect. The member stands as long as nothing is appended, so until then none of
    /// them needs to be made.
    fn try_out(&mut self, prefix: Prefix) -> Result<(), Stop> {
        let whole = prefix.options.0 == 0;
        if whole && !prefix.sent {
            return Ok(());
        }
        let near = match whole || prefix.options.count() > FEW_OPTIONS {
            true => self.work.members.having_only(self.near, prefix.relations),
            false => 0,
        };
        if near != 0 || whole {
            self.fill_target(prefix.left);
        }
        if self.work.members.cover(near, &self.work.target) {
            return Ok(());
        }
        match prefix.options.first() {
            None => self.admit(),
            Some(at) => self.decide(at, prefix),
        }
    }

    /// Leaves the next atom, then sends it to each head atom in turn. What is not valid now is
    /// not valid however it goes on: classes only grow, and what is left stays left.
    fn decide(&mut self, at: usize, prefix: Prefix) -> Result<(), Stop> {
        let (atom, taken) = (self.asked.atoms()[at], self.work.classes.taken());
        let heads = prefix.options.heads(at);
        let options = prefix.options.without(at);
        let mut left = Prefix { options, ..prefix };
        if self.leave_all(1 << at, &mut left) {
            // What is left keeps nothing but unknowns away.
            if !self.rule.has_unknowns || self.look_ahead(&mut left) {
                self.go_on(left)?;
            }
        }
        self.work.classes.undo(taken);
        for d in bits(heads as u64) {
            let mut sent = Prefix { options, ..prefix };
            sent.sent = true;
            if self.work.classes.send(atom, self.rule.head()[d]) && self.look_ahead(&mut sent) {
                self.go_on(sent)?;
            }
            self.work.classes.undo(taken);
        }
        Ok(())
    }

    /// Makes the target of the left atoms, then the body, each class replaced by its name.
    #[inline]
    fn fill_target(&mut self, left: u16) {
        let (names, target) = (self.work.classes.names(), &mut self.work.target);
        target.start(self.asked.form.answer.through(names));
        for at in bits(left as u64) {
            target.push(self.asked.atoms()[at].through(names));
        }
        for atom in self.rule.body() {
            target.push(atom.through(names));
        }
    }

    /// Admits the rewriting that the target is, which no member covers.
    #[cold]
    fn admit(&mut self) -> Result<(), Stop> {
        self.work.members.admit(&mut self.work.target)?;
        self.near = self.work.members.among(self.relations);
        Ok(())
    }

    /// The state of a prefix: everything but the atoms that are sent, each class replaced by
    /// its name. The names tell the unknowns, for none is in a class of another name, and
    /// what is left tells which variables they may not meet.
    fn state(&self, prefix: Prefix) -> State {
        let Prefix { options, left, .. } = prefix;
        let told = left as u32 | (prefix.sent as u32) << 16;
        let names = self.work.classes.names();
        let mut state = State::new(self.work.turns, told, options);
        state.push(self.asked.form.answer.through(names));
        for at in bits((left | options.atoms()) as u64) {
            state.push(self.asked.atoms()[at].through(names));
        }
        // Once all is decided the head plays no part.
        let head = match options.0 {
            0 => &[],
            _ => self.rule.head(),
        };
        for atom in self.rule.body().iter().chain(head) {
            state.push(atom.through(names));
        }
        state
    }
}
