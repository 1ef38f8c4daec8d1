//! Epistemic negations, guesses and the reduct of a guess.

use super::sheet::{Pair, Rule};
use super::{has, members, Set};

/// An epistemic negation of an atom.
#[derive(Clone, Copy, Debug, PartialEq, Eq)]
pub enum Negation {
    /// "not K a"
    NotKnown(usize),
    /// "M a"
    Possible(usize),
}

/// A guess: bit j set means that negation j is assumed to hold.
pub type Guess = u16;

/// An objective rule: if the plain atoms and the "not not" atoms hold and the "not" atoms don't, some head atom holds.
#[derive(Clone, Copy, Debug, Default, PartialEq, Eq)]
pub struct Objective {
    pub head: Set,
    pub plain: Set,
    pub not: Set,
    pub not_not: Set,
}

/// The constraints of pairs: each is one "with both atoms plain".
pub fn of_pairs(pairs: &[Pair]) -> Vec<Objective> {
    pairs.iter().map(|&[one, other]| Objective { plain: 1 << one | 1 << other, ..Objective::default() }).collect()
}

/// The constraints of day masks, in and out: "for each in-atom a constraint "← not a", for each out-atom "← a"".
pub fn of_masks([in_atoms, out_atoms]: [Set; 2]) -> Vec<Objective> {
    let not = members(in_atoms).map(|atom| Objective { not: 1 << atom, ..Objective::default() });
    let plain = members(out_atoms).map(|atom| Objective { plain: 1 << atom, ..Objective::default() });
    not.chain(plain).collect()
}

/// The negations of the rules, by number: atom by atom, "not K a" before "M a".
pub fn negations(rules: &[Rule]) -> Vec<Negation> {
    let occurs = |atom: usize, masks: [usize; 2]| rules.iter().any(|rule| masks.iter().any(|&m| has(rule[m], atom)));
    let mut found = Vec::new();
    for atom in 0..16 {
        found.extend(occurs(atom, [4, 5]).then_some(Negation::NotKnown(atom)));
        found.extend(occurs(atom, [6, 7]).then_some(Negation::Possible(atom)));
    }
    found
}

/// The guess that assumes exactly the negations of which `holds` is true.
pub fn guess_of(negations: &[Negation], holds: impl Fn(Negation) -> bool) -> Guess {
    negations.iter().enumerate().map(|(j, &negation)| Guess::from(holds(negation)) << j).sum()
}

/// What becomes of a subjective literal, or (`Deleted`) of its rule.
#[derive(Clone, Copy, Debug, PartialEq, Eq)]
pub enum Fate {
    Plain,
    Not,
    NotNot,
    Removed,
    Deleted,
}

/// For K a, not K a, M a and not M a: its fate where it doesn't hold, and where it holds.
pub type Table = [[Fate; 2]; 4];

/// The table of the reduct.
pub const REDUCT: Table = [
    [Fate::Deleted, Fate::Plain],
    [Fate::Not, Fate::Removed],
    [Fate::NotNot, Fate::Removed],
    [Fate::Deleted, Fate::Not],
];

/// The reduct of the rules by a guess.
pub fn reduct(rules: &[Rule], negations: &[Negation], guess: Guess) -> Vec<Objective> {
    reduct_by(&REDUCT, rules, negations, guess)
}

/// The same by another table. Inlined, so that `REDUCT` is a constant in `reduct`.
#[inline(always)]
pub fn reduct_by(table: &Table, rules: &[Rule], negations: &[Negation], guess: Guess) -> Vec<Objective> {
    let assumed = |negation| negations.iter().enumerate().any(|(j, &n)| n == negation && guess >> j & 1 == 1);
    rules.iter().filter_map(|rule| reduced(table, rule, &assumed)).collect()
}

/// A rule acted on by a guess, or none where it is deleted.
#[inline(always)]
fn reduced(table: &Table, rule: &Rule, assumed: &impl Fn(Negation) -> bool) -> Option<Objective> {
    let mut objective = Objective { head: rule[0], plain: rule[1], not: rule[2], not_not: rule[3] };
    for (kind, &atoms) in rule[4..].iter().enumerate() {
        for atom in members(atoms) {
            let bit = 1 << atom;
            match table[kind][usize::from(holds(kind, atom, assumed))] {
                Fate::Plain => objective.plain |= bit,
                Fate::Not => objective.not |= bit,
                Fate::NotNot => objective.not_not |= bit,
                Fate::Removed => (),
                Fate::Deleted => return None,
            }
        }
    }
    Some(objective)
}

/// Whether K a, not K a, M a or not M a (kinds 0 to 3) holds.
fn holds(kind: usize, atom: usize, assumed: &impl Fn(Negation) -> bool) -> bool {
    match kind {
        0 => !assumed(Negation::NotKnown(atom)),
        1 => assumed(Negation::NotKnown(atom)),
        2 => assumed(Negation::Possible(atom)),
        _ => !assumed(Negation::Possible(atom)),
    }
}
