//! Kinds of sets of atoms, and wrong ways to judge one: random sheets have to show each.

use crate::growth::*;
use crate::solver::guess::Objective;
use crate::solver::{meet, within, Set};

/// What a set is.
pub type Kind = fn(&Applied) -> bool;

/// Kinds of sets on any sheets.
pub const KINDS: [(&str, Kind); 9] = [
    ("the empty set is stable", |a| a.is_stable() && a.set == 0),
    ("one pass makes a stable set", |a| a.is_stable() && a.is_whole() && a.passes() == 1),
    ("two passes make a stable set", |a| a.is_stable() && a.is_whole() && a.passes() == 2),
    ("three passes or more make a stable set", |a| a.is_stable() && a.is_whole() && a.passes() > 2),
    ("a stable set of three atoms or more takes a pass for each", |a| {
        a.is_stable() && a.set.count_ones() > 2 && a.passes() == a.set.count_ones() as usize
    }),
    ("a loop has no entry", |a| is_loop(a) && a.grown == 0),
    ("a loop has no entry, beside what grows", |a| is_loop(a) && a.grown != 0),
    ("a constraint fails in what is grown whole", |a| a.is_whole() && a.rules.iter().any(|rule| rule.head == 0)),
    ("a head fails in what is grown whole", |a| {
        a.is_whole() && a.rules.iter().any(|rule| rule.head != 0 && !meet(rule.head, a.set))
    }),
];

/// Kinds that come with several head atoms in a rule.
pub const KINDS_OF_SEVERAL: [(&str, Kind); 9] = [
    ("one of several head atoms in a stable set", |a| {
        a.is_stable() && a.rules.iter().any(|rule| alone(rule.head) == 0 && alone(rule.head & a.set) != 0)
    }),
    ("two head atoms in a set grown whole", |a| a.is_stable() && a.is_whole() && !a.is_single()),
    ("two head atoms, and growth stops at a smaller model", |a| !a.is_single() && a.smaller.contains(&a.grown)),
    ("nothing grows in a stable set", |a| a.is_open() && a.is_stable() && a.grown == 0),
    ("nothing grows, and a smaller model is found", |a| a.is_open() && !a.is_stable() && a.grown == 0),
    ("growth stops short of a stable set", |a| a.is_open() && a.is_stable() && a.grown != 0),
    ("growth stops short, and a smaller model is found", |a| a.is_open() && !a.is_stable() && a.grown != 0),
    ("the only smaller model lacks one atom", |a| {
        a.is_open() && a.smaller.len() == 1 && alone(a.set & !a.smaller[0]) != 0
    }),
    ("the only smaller model lacks several atoms, and has one beyond what is grown", |a| {
        let one_beyond = |smaller: Set| alone(a.set & !smaller) == 0 && alone(smaller & !a.grown) != 0;
        a.is_open() && a.smaller.len() == 1 && one_beyond(a.smaller[0])
    }),
];

/// Whether a model of rules with one head atom is supported and not stable.
fn is_loop(a: &Applied) -> bool {
    a.is_model && a.is_single() && a.is_supported() && !a.is_stable()
}

/// A wrong way to judge a set that fits the day masks, of which the in-atoms are given.
pub type Way = fn(&Applied, Set) -> bool;

/// Ways that are wrong on any sheets.
pub const WRONG: [(&str, Way); 12] = [
    ("one pass", |a, _| compared(a, a.after(1))),
    ("two passes", |a, _| compared(a, a.after(2))),
    ("grown from the set itself", |a, _| a.judged(a.set)),
    ("grown from the in-atoms", |a, ins| {
        a.judged(grow(&a.rules, ins, ENOUGH, |rule, grown| within(rule.plain, grown), |head| alone(head & a.set)))
    }),
    ("plain atoms asked of the set", |a, _| a.judged(grown_where(a, |rule, _| applies(rule, a.set)))),
    ("one plain atom asked for", |a, _| {
        let one = |rule: &Objective, grown| rule.plain == 0 || meet(rule.plain, grown);
        a.judged(grown_where(a, |rule, grown| applies(rule, a.set) && one(rule, grown)))
    }),
    ("not asked of what is grown", |a, _| {
        let others = |rule: &Objective, grown| within(rule.plain, grown) && within(rule.not_not, a.set);
        a.judged(grown_where(a, |rule, grown| others(rule, grown) && !meet(rule.not, grown)))
    }),
    ("not not asked of what is grown", |a, _| compared(a, grown_where(a, applies))),
    ("not passed over", |a, _| {
        a.judged(grown_where(a, |rule, grown| within(rule.plain, grown) && within(rule.not_not, a.set)))
    }),
    ("not not passed over", |a, _| {
        a.judged(grown_where(a, |rule, grown| within(rule.plain, grown) && !meet(rule.not, a.set)))
    }),
    ("a constraint passed over", |a, _| {
        a.is_stable() || a.is_whole() && a.rules.iter().all(|rule| rule.head == 0 || meet(rule.head, a.set))
    }),
    ("a head outside the set passed over", |a, _| {
        a.is_stable() || a.is_whole() && a.rules.iter().all(|rule| rule.head != 0)
    }),
];

/// Ways that are right where no rule has several head atoms, and else wrong.
pub const WRONG_ON_SEVERAL: [(&str, Way); 11] = [
    ("two head atoms taken as one", |a, _| a.judged(grown_with(a, |head| head & a.set))),
    ("the first of two head atoms taken", |a, _| a.judged(grown_with(a, |head| first(head & a.set)))),
    ("all of a head taken", |a, _| a.judged(grown_with(a, |head| if alone(head & a.set) != 0 { head } else { 0 }))),
    ("not stable where growth stops short", |a, _| a.is_model && a.is_whole()),
    ("stable where growth stops short", |a, _| a.is_model && !a.smaller.contains(&a.grown)),
    ("searched without what is grown", |a, _| searched(a, |smaller| !meet(smaller, a.grown))),
    ("searched up to the first subset", |a, _| searched(a, |smaller| smaller == a.set & !first(a.set & !a.grown))),
    ("searched from the second subset", |a, _| searched(a, |smaller| smaller != a.set & !first(a.set & !a.grown))),
    ("searched up to two atoms beyond what is grown", |a, _| searched(a, |smaller| alone(smaller & !a.grown) == 0)),
    ("searched by the rules with several head atoms", |a, _| {
        let rules: Vec<Objective> = a.rules.iter().copied().filter(|rule| alone(rule.head & a.set) == 0).collect();
        let found = || proper_subsets(a.set).any(|subset| within(a.grown, subset) && hold_in(&rules, subset));
        a.is_stable() && !(a.is_open() && found())
    }),
    ("what is grown judged by its own not and not not", |a, _| {
        a.is_stable() && (a.is_whole() || !Applied::new(a.program, a.grown).is_model)
    }),
];

/// By growth alone, where each rule that applies has one head atom in the set.
fn compared(a: &Applied, grown: Set) -> bool {
    if a.is_single() {
        a.is_model && grown == a.set
    } else {
        a.is_stable()
    }
}

/// What grows by the rules of the program that are given so.
fn grown_where(a: &Applied, given: impl Fn(&Objective, Set) -> bool) -> Set {
    grow(a.program, 0, ENOUGH, given, |head| alone(head & a.set))
}

/// What grows by the rules that apply, so much of their heads being taken.
fn grown_with(a: &Applied, taken: impl Fn(Set) -> Set) -> Set {
    grow(&a.rules, 0, ENOUGH, |rule, grown| within(rule.plain, grown), taken)
}

/// By a search that sees only such smaller models.
fn searched(a: &Applied, sees: impl Fn(Set) -> bool) -> bool {
    if a.is_open() {
        !a.smaller.iter().any(|&smaller| sees(smaller))
    } else {
        a.is_stable()
    }
}
