//! Random sheets of several shapes, all of them accepted.

use crate::pairs::random_pairs;
use crate::random::Random;
use crate::solver::guess::Negation;
use crate::solver::sheet::Rule;
use crate::write::{sheet_with, HEAD, K, M, NOT, NOT_K, NOT_M, NOT_NOT, PLAIN};

/// What heads most rules have.
#[derive(Clone, Copy, Debug)]
pub enum Heads {
    Single,
    Disjunctions,
    Choices,
    Mixed,
}

pub const HEADS: [Heads; 4] = [Heads::Single, Heads::Disjunctions, Heads::Choices, Heads::Mixed];

/// Bounds of a random sheet: atoms, rules and negations, and how many body literals a rule has at most. Pairs are as
/// many as `random_pairs` makes.
#[derive(Clone, Copy, Debug)]
pub struct Shape {
    pub atoms: (usize, usize),
    pub rules: (usize, usize),
    pub negations: usize,
    pub literals: usize,
}

/// A random sheet within the bounds.
pub fn random_sheet(random: &mut Random, shape: &Shape) -> Vec<u8> {
    let atoms = random.between(shape.atoms.0, shape.atoms.1);
    let heads = random.pick(&HEADS);
    let names = random_names(random, atoms, 12);
    let count = random.between(shape.rules.0, shape.rules.1);
    let pool = negations(random, atoms, shape.negations);
    let rules: Vec<Rule> = (0..count).map(|_| random_rule(random, atoms, heads, &pool, shape.literals)).collect();
    let pairs = random_pairs(random, atoms);
    sheet_with(&names, &rules, &pairs)
}

/// So many different names of at most so many bytes; some begin alike.
pub fn random_names(random: &mut Random, count: usize, longest: usize) -> Vec<Vec<u8>> {
    let mut names: Vec<Vec<u8>> = Vec::new();
    while names.len() < count {
        let mut name = vec![random.pick(b"abcxyz")];
        let length = random.between(1, longest);
        if let (true, Some(other)) = (random.chance(40), names.last()) {
            name = other[..other.len().min(length)].to_vec();
        }
        while name.len() < length {
            name.push(random.pick(b"abyz019_"));
        }
        if !names.contains(&name) {
            names.push(name);
        }
    }
    names
}

/// The negations that the rules may use: at most so many.
pub fn negations(random: &mut Random, atoms: usize, most: usize) -> Vec<Negation> {
    let mut all: Vec<Negation> = (0..atoms).flat_map(|a| [Negation::NotKnown(a), Negation::Possible(a)]).collect();
    let count = random.between(0, most.min(all.len()));
    while all.len() > count {
        all.swap_remove(random.below(all.len()));
    }
    all
}

fn random_rule(random: &mut Random, atoms: usize, heads: Heads, pool: &[Negation], literals: usize) -> Rule {
    let mut rule = [0; 8];
    if atoms == 0 {
        return rule;
    }
    head(random, atoms, heads, &mut rule);
    for _ in 0..random.between(0, literals) {
        let (mask, atom) = match random.pick(&[PLAIN, PLAIN, NOT, NOT, NOT_NOT, K, K, M, M]) {
            K | M if !pool.is_empty() => subjective(random, pool),
            K | M => continue,
            mask => (mask, random.below(atoms)),
        };
        rule[mask] |= 1 << atom;
    }
    rule
}

fn head(random: &mut Random, atoms: usize, heads: Heads, rule: &mut Rule) {
    let size = match heads {
        _ if random.chance(12) => 0,
        Heads::Single | Heads::Choices => 1,
        Heads::Disjunctions => random.between(2, 3),
        Heads::Mixed => random.between(1, 3),
    };
    for _ in 0..size {
        rule[HEAD] |= 1 << random.below(atoms);
    }
    let choice = match heads {
        Heads::Single | Heads::Disjunctions => 0,
        Heads::Choices => 60,
        Heads::Mixed => 20,
    };
    if random.chance(choice) {
        rule[NOT_NOT] |= rule[HEAD];
    }
}

pub fn subjective(random: &mut Random, pool: &[Negation]) -> (usize, usize) {
    match random.pick(pool) {
        Negation::NotKnown(atom) => (random.pick(&[K, NOT_K]), atom),
        Negation::Possible(atom) => (random.pick(&[M, NOT_M]), atom),
    }
}
