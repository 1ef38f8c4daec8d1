//! How far a set of atoms grows from the empty set by the rules that apply in it. Nothing here is from the second
//! solver's search: smaller models are found by trying every subset.

use crate::solver::guess::Objective;
use crate::solver::{meet, within, Set};
use std::iter::successors;

/// Enough passes over the rules: each but the last adds one of at most 15 atoms.
pub const ENOUGH: usize = 16;

/// A set of atoms and a program.
pub struct Applied<'a> {
    pub program: &'a [Objective],
    pub set: Set,
    /// The rules that apply: those whose bodies hold in the set.
    pub rules: Vec<Objective>,
    pub is_model: bool,
    /// What grows from the empty set by the rules that apply and have just one head atom in the set.
    pub grown: Set,
    /// The proper subsets of a model that are models of the rules that apply, without their "not" and "not not".
    pub smaller: Vec<Set>,
}

impl<'a> Applied<'a> {
    pub fn new(program: &'a [Objective], set: Set) -> Self {
        let rules: Vec<Objective> = program.iter().copied().filter(|rule| applies(rule, set)).collect();
        let is_model = hold_in(&rules, set);
        let mut applied = Applied { program, set, rules, is_model, grown: 0, smaller: vec![] };
        applied.grown = applied.after(ENOUGH);
        if is_model {
            applied.smaller = proper_subsets(set).filter(|&subset| hold_in(&applied.rules, subset)).collect();
        }
        applied
    }

    /// A model of which no proper subset is one.
    pub fn is_stable(&self) -> bool {
        self.is_model && self.smaller.is_empty()
    }

    /// Whether each rule that applies has one head atom in the set.
    pub fn is_single(&self) -> bool {
        self.rules.iter().all(|rule| alone(rule.head & self.set) != 0)
    }

    /// Whether each atom of the set is alone in the head of a rule that applies.
    pub fn is_supported(&self) -> bool {
        self.rules.iter().fold(0, |atoms, rule| atoms | alone(rule.head & self.set)) == self.set
    }

    pub fn is_whole(&self) -> bool {
        self.grown == self.set
    }

    /// Whether a model neither is grown whole nor stops growing at a smaller one.
    pub fn is_open(&self) -> bool {
        self.is_model && !self.is_whole() && !self.smaller.contains(&self.grown)
    }

    /// How many passes add an atom.
    pub fn passes(&self) -> usize {
        (0..ENOUGH).find(|&passes| self.after(passes) == self.grown).unwrap_or(ENOUGH)
    }

    /// What is grown after so many passes.
    pub fn after(&self, passes: usize) -> Set {
        grow(&self.rules, 0, passes, |rule, grown| within(rule.plain, grown), |head| alone(head & self.set))
    }

    /// The answer when so much is grown: stable where that is the set; not so where it is a smaller model, nor where
    /// some smaller model contains it.
    pub fn judged(&self, grown: Set) -> bool {
        let found = || hold_in(&self.rules, grown) || self.smaller.iter().any(|&smaller| within(grown, smaller));
        self.is_model && (grown == self.set || !found())
    }
}

/// Whether the body of a rule holds in a set.
pub fn applies(rule: &Objective, set: Set) -> bool {
    within(rule.plain | rule.not_not, set) && !meet(rule.not, set)
}

/// Whether rules hold in a set, their "not" and "not not" passed over.
pub fn hold_in(rules: &[Objective], set: Set) -> bool {
    rules.iter().all(|rule| !within(rule.plain, set) || meet(rule.head, set))
}

/// What grows from `start` in so many passes over the rules in their order: where a rule is given by what is grown, what
/// is taken of its head enters.
pub fn grow(
    rules: &[Objective],
    start: Set,
    passes: usize,
    given: impl Fn(&Objective, Set) -> bool,
    taken: impl Fn(Set) -> Set,
) -> Set {
    let step = |grown: Set, rule: &Objective| if given(rule, grown) { grown | taken(rule.head) } else { grown };
    let pass = |&before: &Set| Some(rules.iter().fold(before, step)).filter(|&after| after != before);
    successors(Some(start), pass).take(passes + 1).last().expect("the start")
}

/// The atom of a set of one, else none.
pub fn alone(set: Set) -> Set {
    if set.count_ones() == 1 {
        set
    } else {
        0
    }
}

/// The first atom of a set, as a set of one.
pub fn first(set: Set) -> Set {
    set & set.wrapping_neg()
}

/// The proper subsets of a set, by falling number.
pub fn proper_subsets(set: Set) -> impl Iterator<Item = Set> {
    let next = move |&subset: &Set| (subset != 0).then(|| (subset - 1) & set);
    successors(next(&set), next)
}
