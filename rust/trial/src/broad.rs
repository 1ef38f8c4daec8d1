//! Random sheets of 12 to 15 atoms, few of whose guesses are covered or ruled. Some atoms stand in twos, of which one is
//! there unless the other is known. Each other atom is chosen freely, or is in a disjunction, a cycle of "not" or a
//! ring; subjective literals stand in these rules, in constraints and in further rules.

use crate::pairs::pairs_of;
use crate::random::Random;
use crate::sheets::subjective;
use crate::solver::guess::Negation;
use crate::solver::members;
use crate::solver::sheet::Rule;
use crate::write::*;

/// A random sheet of so many atoms, twelve or more, and exactly so many negations.
pub fn broad_sheet(random: &mut Random, atoms: usize, negations: usize) -> Vec<u8> {
    let mut left: Vec<u16> = (0..atoms).map(|atom| 1 << atom).collect();
    let mut rules = Vec::new();
    let twos = random.pick(&[0, 0, 1, 2, 3]).min(negations / 2);
    let known = (0..twos).fold(0, |known, _| known | two(random, &mut left, &mut rules));
    let choices = random.pick(&[30, 60, 90, 100, 100]);
    while !left.is_empty() {
        let size = if random.chance(choices) { 1 } else { random.between(2, 4) };
        let part = some(random, &mut left, size);
        rules.extend(part_of(random, &part));
    }
    let into_rules = random.pick(&[40, 40, 95]);
    for negation in pool(random, atoms, known, negations - 2 * twos) {
        let literal = subjective(random, &[negation]);
        place(random, atoms, literal, into_rules, &mut rules);
    }
    let count = random.pick(&[0, 0, 0, 1, 2]);
    lettered_with(atoms, &rules, &pairs_of(random, atoms, count))
}

/// So many of these, as far as there are, which are then gone.
fn some<T>(random: &mut Random, left: &mut Vec<T>, count: usize) -> Vec<T> {
    (0..count.min(left.len())).map(|_| left.swap_remove(random.below(left.len()))).collect()
}

/// Two atoms, each there unless the other is known: as the rules have it; or as constraints demand, where both are choices,
/// or one is there if it is known. They are given.
fn two(random: &mut Random, left: &mut Vec<u16>, rules: &mut Vec<Rule>) -> u16 {
    let two = some(random, left, 2);
    let [demanded, from] = random.pick(&[[HEAD, HEAD], [NOT, NOT_NOT], [NOT, NOT_NOT], [NOT, K]]);
    for (atom, other, from) in [(two[0], two[1], from), (two[1], two[0], NOT_NOT)] {
        rules.push(rule(&[(demanded, atom), (NOT_K, other)]));
        if demanded == NOT {
            rules.push(rule(&[(HEAD, atom), (from, atom)]));
        }
    }
    two[0] | two[1]
}

/// So many different negations, none of them "not K" of an atom of `known`.
fn pool(random: &mut Random, atoms: usize, known: u16, count: usize) -> Vec<Negation> {
    let all = (0..atoms).flat_map(|atom| [Negation::NotKnown(atom), Negation::Possible(atom)]);
    let mut left = all.filter(|&negation| members(known).all(|atom| negation != Negation::NotKnown(atom))).collect();
    some(random, &mut left, count)
}

/// Rules for these atoms: one is a choice; of several one is there, or all or none, or it depends on others.
fn part_of(random: &mut Random, atoms: &[u16]) -> Vec<Rule> {
    let all = atoms.iter().sum();
    let next = |i: usize| atoms[(i + 1) % atoms.len()];
    let round = |mask| (0..atoms.len()).map(move |i| rule(&[(HEAD, atoms[i]), (mask, next(i))]));
    match random.below(6) {
        _ if atoms.len() == 1 => vec![rule(&[(HEAD, all), (NOT_NOT, all)])],
        0 => vec![rule(&[(HEAD, all)])],
        1 => vec![rule(&[(HEAD, all), (NOT_NOT, atoms[0])])],
        2 => round(NOT).collect(),
        3 => round(PLAIN).collect(),
        4 => round(PLAIN).chain([rule(&[(HEAD, all), (NOT_NOT, atoms[0])])]).collect(),
        _ => round(PLAIN).chain([rule(&[(HEAD, all)])]).collect(),
    }
}

/// Puts a subjective literal into a rule, with this chance, or with another literal into a new one: a constraint or a
/// rule for an atom, at times its own, or for two.
fn place(random: &mut Random, atoms: usize, (mask, atom): (usize, usize), chance: usize, rules: &mut Vec<Rule>) {
    if random.chance(chance) {
        let at = random.below(rules.len());
        rules[at][mask] |= 1 << atom;
        return;
    }
    let mut new = rule(&[(random.pick(&[PLAIN, NOT, NOT_NOT]), 1 << random.below(atoms))]);
    new[mask] |= 1 << atom;
    new[HEAD] |= match random.below(8) {
        0..5 => 0,
        5 => 1 << random.below(atoms),
        6 => 1 << atom,
        _ => 1 << atom | 1 << random.below(atoms),
    };
    rules.push(new);
}
