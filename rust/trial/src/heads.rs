//! Random sheets made of parts whose sets of atoms are judged in different ways: rings, chains, cycles of "not" and
//! other rules with at most one head atom; disjunctions alone, in rings, and of atoms that other rules give too.

use crate::pairs::random_pairs;
use crate::random::Random;
use crate::sheets::{negations, subjective};
use crate::solver::sheet::Rule;
use crate::write::{lettered_with, rule, HEAD, NOT, NOT_NOT, PLAIN};

/// The heads of a sheet: each of at most one atom; many of two or three; both mixed.
#[derive(Clone, Copy, Debug, PartialEq, Eq)]
pub enum Family {
    Single,
    Disjunctive,
    Mixed,
}

/// Some rules over so many atoms.
type Part = fn(&mut Random, usize) -> Vec<Rule>;

const SINGLE: [Part; 9] = [fact, ring, ring_with_entry, ring_with_entry, chain, cycle, choice, constraint, joint];
const DISJUNCTIVE: [Part; 8] =
    [disjunction, disjunction, ring_with_head, ring_with_head, given, saturated, choice, constraint];

/// A sheet of 3 to 10 atoms, at most 20 rules, mostly up to 12, at most so many negations, and pairs. Its rules stand
/// in the order of their parts, in the reverse of it or in any.
pub fn sheet_of_parts(random: &mut Random, family: Family, most: usize) -> Vec<u8> {
    let parts = match family {
        Family::Single => SINGLE.to_vec(),
        Family::Disjunctive => DISJUNCTIVE.to_vec(),
        Family::Mixed => [&SINGLE[..], &DISJUNCTIVE].concat(),
    };
    let (atoms, count) = (random.between(3, 10), random.below(12));
    let mut rules = Vec::new();
    while rules.len() < count {
        rules.extend(random.pick(&parts)(random, atoms));
    }
    match random.below(3) {
        0 => (),
        1 => rules.reverse(),
        _ => rules = some(random, &rules, rules.len()),
    }
    let pool = negations(random, atoms, most);
    for rule in rules.iter_mut().filter(|_| !pool.is_empty()) {
        let (mask, atom) = subjective(random, &pool);
        rule[mask] |= u16::from(random.chance(25)) << atom;
    }
    lettered_with(atoms, &rules, &random_pairs(random, atoms))
}

/// So many of these, in any order.
fn some<T: Copy>(random: &mut Random, from: &[T], count: usize) -> Vec<T> {
    let mut left = from.to_vec();
    (0..count).map(|_| left.swap_remove(random.below(left.len()))).collect()
}

/// From `least` to `most` different atoms, as sets of one, as far as there are so many.
fn different(random: &mut Random, atoms: usize, least: usize, most: usize) -> Vec<u16> {
    let all: Vec<u16> = (0..atoms).map(|atom| 1 << atom).collect();
    let count = random.between(least.min(atoms), most.min(atoms));
    some(random, &all, count)
}

/// An atom, as a set of one.
fn one(random: &mut Random, atoms: usize) -> u16 {
    1 << random.below(atoms)
}

/// A rule for this head: a fact, a choice, or with one literal.
fn entry(random: &mut Random, atoms: usize, head: u16) -> Rule {
    let atom = one(random, atoms);
    let literal = random.pick(&[(PLAIN, 0), (NOT_NOT, head), (PLAIN, atom), (NOT, atom), (NOT, atom), (NOT_NOT, atom)]);
    rule(&[(HEAD, head), literal])
}

/// Each of these atoms from the next one, the last from the first.
fn round(atoms: &[u16], mask: usize) -> Vec<Rule> {
    let next = atoms.iter().cycle().skip(1);
    atoms.iter().zip(next).map(|(&atom, &next)| rule(&[(HEAD, atom), (mask, next)])).collect()
}

fn fact(random: &mut Random, atoms: usize) -> Vec<Rule> {
    vec![rule(&[(HEAD, one(random, atoms))])]
}

/// a <- b; b <- c; c <- a.
fn ring(random: &mut Random, atoms: usize) -> Vec<Rule> {
    round(&different(random, atoms, 2, 5), PLAIN)
}

/// A ring, and another rule for one of its atoms.
fn ring_with_entry(random: &mut Random, atoms: usize) -> Vec<Rule> {
    let mut rules = ring(random, atoms);
    let head = random.pick(&rules)[HEAD];
    rules.push(entry(random, atoms, head));
    rules
}

/// A rule for a; b <- a; c <- b; and so on.
fn chain(random: &mut Random, atoms: usize) -> Vec<Rule> {
    let links = different(random, atoms, 3, 6);
    let mut rules = vec![entry(random, atoms, links[0])];
    rules.extend(links.windows(2).map(|two| rule(&[(HEAD, two[1]), (PLAIN, two[0])])));
    rules
}

/// a <- not b; b <- not c; c <- not a: an odd cycle, or an even one.
fn cycle(random: &mut Random, atoms: usize) -> Vec<Rule> {
    round(&different(random, atoms, 2, 5), NOT)
}

fn choice(random: &mut Random, atoms: usize) -> Vec<Rule> {
    let atom = one(random, atoms);
    vec![rule(&[(HEAD, atom), (NOT_NOT, atom)])]
}

fn constraint(random: &mut Random, atoms: usize) -> Vec<Rule> {
    let masks = [PLAIN, NOT, NOT_NOT];
    vec![rule(&[(random.pick(&masks), one(random, atoms)), (random.pick(&masks), one(random, atoms))])]
}

/// a <- b, c, and at times "not d".
fn joint(random: &mut Random, atoms: usize) -> Vec<Rule> {
    let head = one(random, atoms);
    let plain = different(random, atoms, 2, 3).iter().sum();
    let not = if random.chance(40) { one(random, atoms) } else { 0 };
    vec![rule(&[(HEAD, head), (PLAIN, plain), (NOT, not)])]
}

/// a | b or a | b | c.
fn disjunction(random: &mut Random, atoms: usize) -> Vec<Rule> {
    let head = different(random, atoms, 2, 3).iter().sum();
    vec![entry(random, atoms, head)]
}

/// A ring, and a rule for two or three of its atoms together.
fn ring_with_head(random: &mut Random, atoms: usize) -> Vec<Rule> {
    let links = different(random, atoms, 2, 5);
    let mut rules = round(&links, PLAIN);
    let count = random.between(2, links.len().min(3));
    let head = some(random, &links, count).iter().sum();
    rules.push(entry(random, atoms, head));
    rules
}

/// a | b; a <- c; b <- c; a rule for c.
fn given(random: &mut Random, atoms: usize) -> Vec<Rule> {
    let [a, b, c] = different(random, atoms, 3, 3)[..] else { unreachable!("three atoms") };
    let from = |head| rule(&[(HEAD, head), (PLAIN, c)]);
    vec![rule(&[(HEAD, a | b)]), from(a), from(b), entry(random, atoms, c)]
}

/// a | b; c | d; e from most ways to have one of each; most of a, b, c and d from e. Of few atoms a | b alone.
fn saturated(random: &mut Random, atoms: usize) -> Vec<Rule> {
    let mut chosen = different(random, atoms, 3, 5);
    let full = chosen.pop().expect("three atoms or more");
    let pairs: Vec<&[u16]> = chosen.chunks_exact(2).collect();
    let ways: Vec<u16> = match pairs[..] {
        [one, other] => one.iter().flat_map(|a| other.iter().map(move |c| a | c)).collect(),
        _ => pairs.concat(),
    };
    let mut rules: Vec<Rule> = pairs.iter().map(|pair| rule(&[(HEAD, pair[0] | pair[1])])).collect();
    let to_full = ways.iter().map(|&way| rule(&[(HEAD, full), (PLAIN, way)]));
    let from_full = pairs.concat().into_iter().map(|atom| rule(&[(HEAD, atom), (PLAIN, full)]));
    rules.extend(to_full.chain(from_full).filter(|_| random.chance(88)));
    rules
}
