//! Ruling out: T and F of a reduct, and whether they contradict the guess.

use super::guess::{Guess, Negation, Objective};
use super::{has, meet, within, Set};

/// The least sets T and F closed under the rules of document 01.
#[derive(Clone, Copy, Debug, PartialEq, Eq)]
pub struct Closure {
    pub t: Set,
    pub f: Set,
}

impl Closure {
    /// "Its plain and "not not" atoms are in T and its "not" atoms in F."
    fn is_sure(self, rule: &Objective) -> bool {
        within(rule.plain | rule.not_not, self.t) && within(rule.not, self.f)
    }

    /// "A plain or "not not" atom is in F or a "not" atom in T."
    fn is_dead(self, rule: &Objective) -> bool {
        meet(rule.plain | rule.not_not, self.f) || meet(rule.not, self.t)
    }

    /// "An atom whose sure rule has all other head atoms in F enters T."
    fn enters_t(self, rules: &[Objective], atom: usize) -> bool {
        let bit = 1 << atom;
        rules.iter().any(|rule| has(rule.head, atom) && self.is_sure(rule) && within(rule.head & !bit, self.f))
    }

    /// "An atom, all of whose head rules are dead, enters F (so does an atom with none)."
    fn enters_f(self, rules: &[Objective], atom: usize) -> bool {
        rules.iter().filter(|rule| has(rule.head, atom)).all(|rule| self.is_dead(rule))
    }

    fn step(mut self, rules: &[Objective], atoms: usize) -> Closure {
        for atom in 0..atoms {
            self.t |= Set::from(self.enters_t(rules, atom)) << atom;
            self.f |= Set::from(self.enters_f(rules, atom)) << atom;
        }
        self
    }
}

/// T and F of a reduct over so many atoms.
pub fn closure(rules: &[Objective], atoms: usize) -> Closure {
    let mut now = Closure { t: 0, f: 0 };
    loop {
        let next = now.step(rules, atoms);
        if next == now {
            return now;
        }
        now = next;
    }
}

/// Whether a guess is contradicted; `rules` are its program.
pub fn is_contradicted(rules: &[Objective], atoms: usize, negations: &[Negation], guess: Guess) -> bool {
    let closed = closure(rules, atoms);
    let negation_fails = |(j, negation): (usize, &Negation)| match (*negation, guess >> j & 1 == 1) {
        (Negation::NotKnown(atom), true) | (Negation::Possible(atom), false) => has(closed.t, atom),
        (Negation::NotKnown(atom), false) | (Negation::Possible(atom), true) => has(closed.f, atom),
    };
    meet(closed.t, closed.f)
        || rules.iter().any(|rule| rule.head == 0 && closed.is_sure(rule))
        || negations.iter().enumerate().any(negation_fails)
}
