//! Named sheets of 13 to 15 atoms for the benchmark: hard ones, where thousands of guesses are neither covered nor ruled
//! and each has many sets to be judged; and quick ones of at most 60 such guesses, which have to stay quick.
//!
//! A guess is not ruled where T and F say nothing of the atoms asked for: these are chosen freely, or are in a
//! disjunction. No guess near the top is verified where some atom is always in, but for reasons that T and F don't see,
//! and "not K" of it is asked for; or is never in, and M of it is.

use crate::large::random_rule;
use crate::random::{Random, SEED};
use crate::solver::sheet::Rule;
use crate::text::good;
use crate::write::*;
use std::ops::Range;

/// A name, a sheet and day masks, in and out.
pub type Named = (&'static str, Vec<u8>, [u16; 2]);

/// The hard sheets.
pub fn hard() -> Vec<Named> {
    let free = |name, atoms, rules: Vec<Rule>| (name, lettered(atoms, &rules), [0, 0]);
    vec![
        ("16 views, 1 in, 1 out", lettered(15, &views_beyond_a_ring()), [1 << 11, 1]),
        free("odd cycles, 8 choices", 15, odd_cycles(7, 3)),
        free("two rings, choices beyond", 15, two_rings()),
        free("dense disjunctions", 15, disjunctions(0, 4, 30)),
        free("dense disjunctions, 2nd", 15, disjunctions(6, 3, 25)),
        ("64 views, a ring in", lettered(15, &views_beyond_a_ring()), [0b111 << 12, 0]),
        free("twelve guessed atoms", 15, guessed_atoms()),
        free("a ring, 10 choices beyond", 13, ring_and_choices()),
        free("a loop, 12 choices", 15, loop_and_choices()),
        free("a loop, guessed twos", 15, loop_and_twos()),
        ("found by climbing", climbed(), [0, 0]),
    ]
}

/// The quick sheets, of 15 atoms.
pub fn quick() -> Vec<Named> {
    let free = |name, rules: Vec<Rule>| (name, lettered(15, &rules), [0, 0]);
    vec![
        free("32 views, 5 choices", twos_and_choices(10, 0)),
        free("8 views, 9 choices", twos_and_choices(6, 0b111 << 9)),
        free("a view below the top", below_the_top()),
        free("an odd cycle, 16 guesses", cycle_of_few()),
    ]
}

/// So many atoms, the others choices. Each atom unless the next one is there, when its choice is in; and unless the one
/// so many steps on is, when its choice is out. Asked for are the first atoms, six by K and six by M.
fn odd_cycles(atoms: usize, steps: usize) -> Vec<Rule> {
    let mut rules = choices(atoms..15);
    for atom in 0..atoms {
        let choice = 1 << (atoms + atom);
        let after = |steps: usize| 1 << ((atom + steps) % atoms);
        rules.push(rule(&[(HEAD, 1 << atom), (PLAIN, choice), (NOT, after(1))]));
        rules.push(rule(&[(HEAD, 1 << atom), (NOT, after(steps) | choice)]));
    }
    rules.push(names_negations(0x3F, 0x3F));
    rules
}

/// Atoms in a ring, each from the next one, and one of them: so all are in. None grows from the empty set.
fn ring(atoms: Range<usize>) -> Vec<Rule> {
    let (first, count) = (atoms.start, atoms.len());
    let next = |atom: usize| 1 << (first + (atom + 1 - first) % count);
    let mut rules: Vec<Rule> = atoms.map(|atom| rule(&[(HEAD, 1 << atom), (PLAIN, next(atom))])).collect();
    rules.push(rule(&[(HEAD, ((1 << count) - 1) << first)]));
    rules
}

/// Choices that are there with another atom only: a <- r, not not a.
fn choices_with(atom: usize, atoms: Range<usize>) -> Vec<Rule> {
    let with = |mut choice: Rule| {
        choice[PLAIN] |= 1 << atom;
        choice
    };
    choices(atoms).into_iter().map(with).collect()
}

/// Two rings with choices beyond, three of which are struck by the guesses that take them for possible.
fn two_rings() -> Vec<Rule> {
    let mut rules = [ring(0..3), ring(3..6), choices_with(0, 6..10), choices_with(3, 10..15)].concat();
    rules.extend((6..9).map(|atom| rule(&[(PLAIN, 1 << atom), (M, 1 << atom), (NOT_K, 1)])));
    rules.push(names_negations(0x3F, 0xFC0));
    rules
}

/// Random disjunctions of so many atoms with two body literals and a subjective one, beside six choices.
fn disjunctions(stream: u64, heads: usize, count: usize) -> Vec<Rule> {
    let mut random = Random::new(SEED, stream);
    let mut rules = vec![names_negations(0x3F, 0x3F)];
    rules.extend(choices(9..15));
    for _ in 0..count {
        rules.push(random_rule(&mut random, heads, 0x3F));
    }
    rules
}

/// Six twos of choices beyond a ring; of each two, one is in unless the other is known.
fn views_beyond_a_ring() -> Vec<Rule> {
    let mut rules = [ring(12..15), choices_with(12, 0..12)].concat();
    rules.extend((0..12).map(|atom| rule(&[(NOT, 1 << atom), (NOT_K, 1 << (atom ^ 1))])));
    rules
}

/// Fifteen choices; of twelve, six are asked for by M and six by K. The first two are out and the seventh is in, whatever
/// is guessed; which of the other sets are left depends on the guess.
fn guessed_atoms() -> Vec<Rule> {
    let mut rules = choices(0..15);
    rules.extend((0..2).map(|atom| rule(&[(PLAIN, 1 << atom), (M, 1 << atom)])));
    rules.push(rule(&[(NOT, 1 << 6), (NOT_K, 1 << 6)]));
    rules.extend((2..5).map(|atom| rule(&[(PLAIN, 1 << (atom + 5)), (NOT, 1 << (atom + 9)), (NOT_M, 1 << atom)])));
    rules.extend((7..10).map(|atom| rule(&[(PLAIN, 1 << (atom - 5) | 1 << (atom + 3)), (K, 1 << atom)])));
    rules.push(names_negations(0x3F << 6, 0x3F));
    rules
}

/// Ten choices beyond a ring: 1,024 stable sets, none of which grows, so that all smaller sets are tried.
fn ring_and_choices() -> Vec<Rule> {
    let mut rules = [ring(0..3), choices_with(0, 3..13)].concat();
    rules.push(names_negations(0x3F, 0x3F0));
    rules
}

/// Three atoms in a loop, each from the next one, and one of them demanded; so nothing is stable. A set that has the
/// loop is a model whose atoms are all supported, and the smaller one has no atom of the loop.
fn loop_and(choices: Vec<Rule>) -> Vec<Rule> {
    let mut rules = [choices, ring(12..15)].concat();
    rules.pop();
    rules.push(rule(&[(NOT, 1 << 12)]));
    rules
}

/// The loop beside twelve choices, which are asked for and decide nothing.
fn loop_and_choices() -> Vec<Rule> {
    let mut rules = loop_and(choices(0..12));
    rules.push(names_negations(0x3F, 0x3F << 6));
    rules
}

/// The loop beside twelve choices in twos; which of their rules are on depends on the guess.
fn loop_and_twos() -> Vec<Rule> {
    let mut rules = loop_and(choices(0..12));
    for (one, other) in (0..6).map(|atom| (1 << atom, 1 << (atom + 6))) {
        rules.push(rule(&[(HEAD, other), (PLAIN, one), (K, other), (M, one)]));
        rules.push(rule(&[(HEAD, one | other), (PLAIN, 1 << 12), (NOT_K, other), (NOT_M, one)]));
    }
    rules
}

/// The slowest sheet that was met by changing rules at random and keeping what made the listing slower.
fn climbed() -> Vec<u8> {
    let text = "a b c d e f g h i j k l m n o:
        a <- not not a; b <- not not b; c <- not not c; f <- not not f; g <- not not g; j <- not not j
        m <- not not m; o <- not not o; c <- o, not M c; c <- e, not not c; c <- o, not M c, not M m
        d <- not not d, M n; e <- not not e, not K b, not K m; e <- m, M e, not M i
        e <- b, not not e, not K b, not K m; e <- M e, not M i; g <- not o, not not g, not M e
        g <- not not g, not K i; h <- not not h, not K o, M m; a | h <- a, not not a; d | h <- not not d, M n
        i <- not not i, not K o; i <- b, not not g, not M i; e | j <- not not e, not K b, not K m
        k <- not not k, not not o; k <- M m, not M m; k <- not not i, not not k; l <- not not l, M d
        m <- not a, not M d; m <- not a, not M d, not M n; h | m <- not not h, M m; h | m <- K o, not K e, M n
        n <- not not n, M n; j | n <- k, not K o, M n; g | o <- c, g, h, K a, K o; g | m | o <- g, h, K a, K o
        <- not o, not K e, not K i; <- not d, not f, K o";
    good(text)
}

/// So many atoms in twos, each there unless the other is known; the rest choices, some of them asked for by K and M.
fn twos_and_choices(atoms: usize, asked: u16) -> Vec<Rule> {
    let mut rules: Vec<Rule> = (0..atoms).map(|atom| rule(&[(HEAD, 1 << atom), (NOT_K, 1 << (atom ^ 1))])).collect();
    rules.extend(choices(atoms..15));
    rules.push(names_negations(asked, asked));
    rules
}

/// Five choices, of which the first is never in, and atoms that follow from these. Half of 32 guesses take the first for
/// possible; the largest of the others is verified.
fn below_the_top() -> Vec<Rule> {
    let mut rules = choices(0..5);
    rules.extend((5..15).map(|atom| rule(&[(HEAD, 1 << atom), (PLAIN, 1 << (atom % 5)), (NOT, 1 << (atom % 4))])));
    rules.push(rule(&[(PLAIN, 1), (M, 1)]));
    rules.push(names_negations(0b110, 0b110));
    rules
}

/// An odd cycle of eleven atoms beside four choices, of which two are asked for.
fn cycle_of_few() -> Vec<Rule> {
    let mut rules = choices(11..15);
    rules.extend((0..11).map(|atom| rule(&[(HEAD, 1 << atom), (NOT, 1 << ((atom + 1) % 11))])));
    rules.push(names_negations(3 << 11, 3 << 11));
    rules
}
