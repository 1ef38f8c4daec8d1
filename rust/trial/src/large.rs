//! Named sheets, most of them at the limits, some of them under day masks, and four at a time: for the benchmark and for
//! the comparison of large listings.

use crate::cases::sheets::{free, one_known, twos, SEVEN};
use crate::known::kiln;
use crate::random::{Random, SEED};
use crate::solver::sheet::Rule;
use crate::write::*;

/// The sheets with their names.
pub fn named() -> Vec<(&'static str, Vec<u8>)> {
    vec![
        ("kiln", kiln()),
        ("nearly all ruled", lettered(15, &all_ruled())),
        ("all but one covered", lettered(15, &each(12, |a| rule(&[(HEAD, a), (K, a)])))),
        ("64 views, twos", twos()),
        ("81 views, triples", one_known(&["abc", "def", "ghi", "jkl"])),
        ("single heads", lettered(15, &random_rules(1, 1, 63, 0x3F))),
        ("disjunctions of two", lettered(15, &random_rules(1, 2, 63, 0x3F))),
        ("disjunctions of three", lettered(15, &random_rules(3, 3, 63, 0xF))),
        ("free choices", lettered(15, &free_choices())),
        ("odd cycle of 9", lettered(9, &odd_cycle(9, 0x3F))),
        ("odd cycle of 15", lettered(15, &odd_cycle(15, 0x3F))),
        ("choices, odd cycle", lettered(15, &choices_and_cycle())),
        ("three colours", lettered(15, &colours())),
        ("14 choices, p <- not p", lettered(15, &choices_and_odd_loop())),
        ("loops through ten doors", lettered(15, &doors())),
        ("possible or not", lettered(15, &each(12, |a| rule(&[(HEAD, a), (NOT_M, a << 3)])))),
        ("64 views, opposites", lettered_with(15, &opposites(), &SEVEN)),
    ]
}

/// Sheets with their names and day masks, in and out: free choices without, with few and with most of them in or out.
pub fn masked() -> Vec<(&'static str, Vec<u8>, [u16; 2])> {
    let (sheet, all) = (lettered(15, &free_choices()), free(15));
    vec![
        ("free choices, 1 in", sheet.clone(), [1, 0]),
        ("free choices, 1 out", sheet.clone(), [0, 1]),
        ("free choices, 3 in, 3 out", sheet.clone(), [0b00_0000_0111, 0b11_1000_0000]),
        ("free choices, 5 in, 5 out", sheet, [0b01_0101_0101, 0b10_1010_1010]),
        ("15 choices", all.clone(), [0, 0]),
        ("15 choices, 5 in, 5 out", all, [0b11111, 0b11111 << 10]),
    ]
}

/// Four of the named sheets with a name, and how many copies of a call are timed: all slow, all fast, some of each.
pub fn fours() -> Vec<(&'static str, [Vec<u8>; 4], usize)> {
    let named = named();
    let sheet = |name: &str| named.iter().find(|(other, _)| *other == name).expect(name).1.clone();
    let same = |name: &str| [(); 4].map(|()| sheet(name));
    vec![
        ("single heads, four times", same("single heads"), 100),
        ("odd cycle of 15, four times", same("odd cycle of 15"), 200),
        ("14 choices, four times", same("14 choices, p <- not p"), 200),
        ("odd cycle of 9, four times", same("odd cycle of 9"), 500),
        ("twos, four times", same("64 views, twos"), 50),
        ("nearly all ruled, four times", same("nearly all ruled"), 50),
        ("three colours, four times", same("three colours"), 1_000),
        ("kiln, four times", same("kiln"), 10_000),
        ("single heads last", ["kiln", "three colours", "64 views, twos", "single heads"].map(sheet), 50),
        ("odd cycle first", ["odd cycle of 15", "kiln", "kiln", "kiln"].map(sheet), 500),
        ("views, ruled and free", ["81 views, triples", "nearly all ruled", "free choices", "kiln"].map(sheet), 50),
        ("two slow, two fast", ["odd cycle of 15", "kiln", "single heads", "free choices"].map(sheet), 200),
    ]
}

/// One rule for each of the first atoms.
fn each(count: usize, rule: impl Fn(u16) -> Rule) -> Vec<Rule> {
    (0..count).map(|atom| rule(1 << atom)).collect()
}

/// Twelve atoms, each from M of itself, and three choices: with seven pairs, most guesses are contradicted by a pair.
fn opposites() -> Vec<Rule> {
    let mut rules = each(12, |a| rule(&[(HEAD, a), (M, a)]));
    rules.extend(choices(12..15));
    rules
}

/// Twelve facts, each to be known, and three choices: every guess but one is contradicted.
fn all_ruled() -> Vec<Rule> {
    let mut rules = each(12, |a| rule(&[(HEAD, a)]));
    rules.extend(each(12, |a| rule(&[(NOT_K, a)])));
    rules.extend(choices(12..15));
    rules
}

/// A rule with so many head atoms, two body literals and a subjective one on the atoms of `asked`.
pub fn random_rule(random: &mut Random, heads: usize, asked: u16) -> Rule {
    let mut rule = [0; 8];
    for _ in 0..heads {
        rule[HEAD] |= 1 << random.below(15);
    }
    rule[random.pick(&[PLAIN, PLAIN, NOT])] |= 1 << random.below(15);
    rule[random.pick(&[PLAIN, NOT])] |= 1 << random.below(15);
    rule[random.pick(&[K, NOT_K, M, NOT_M])] |= 1 << random.below(15) & asked;
    rule
}

/// Random rules with so many head atoms, two body literals and a subjective one on the atoms of `asked`.
fn random_rules(stream: u64, heads: usize, count: usize, asked: u16) -> Vec<Rule> {
    let mut random = Random::new(SEED, stream);
    let mut rules = vec![names_negations(asked, asked)];
    for _ in 0..count {
        rules.push(random_rule(&mut random, heads, asked));
    }
    rules
}

/// Ten choices; three atoms are known when a choice is, and two are possible when one is.
fn free_choices() -> Vec<Rule> {
    let mut rules = choices(0..10);
    rules.extend((0..3).map(|atom| rule(&[(HEAD, 1 << (10 + atom)), (K, 1 << atom)])));
    rules.extend((0..2).map(|atom| rule(&[(HEAD, 1 << (13 + atom)), (M, 1 << atom)])));
    rules
}

/// a <- not b; b <- not c; and so on round: no stable set when the number of atoms is odd.
fn odd_cycle(atoms: usize, asked: u16) -> Vec<Rule> {
    let mut rules: Vec<Rule> =
        (0..atoms).map(|atom| rule(&[(HEAD, 1 << atom), (NOT, 1 << ((atom + 1) % atoms))])).collect();
    rules.push(names_negations(asked, asked));
    rules
}

/// An odd cycle of three atoms beside twelve choices.
fn choices_and_cycle() -> Vec<Rule> {
    let mut rules = odd_cycle(3, 0b111);
    rules.extend(choices(3..15));
    rules
}

/// p <- not p beside fourteen choices: p is in every model, and has no support there.
fn choices_and_odd_loop() -> Vec<Rule> {
    let mut rules = choices(0..14);
    rules.push(rule(&[(HEAD, 1 << 14), (NOT, 1 << 14)]));
    rules.push(names_negations(0x3F, 0x3F));
    rules
}

/// Five rooms in a ring, two doors between neighbours, one for each way, that may be open or not; the first room is entered.
fn doors() -> Vec<Rule> {
    let room = |number: usize| 1 << (10 + number % 5);
    let mut rules = choices(0..10);
    for number in 0..5 {
        let doors = [1 << number, 1 << (5 + number)];
        rules.push(rule(&[(HEAD, room(number)), (PLAIN, room(number + 1) | doors[0])]));
        rules.push(rule(&[(HEAD, room(number + 1)), (PLAIN, room(number) | doors[1])]));
    }
    rules.push(rule(&[(HEAD, room(0))]));
    rules.push(names_negations(room(2), room(3)));
    rules
}

/// Five nodes in a ring, each of three colours, no neighbours alike; the first is known red, others are asked for.
fn colours() -> Vec<Rule> {
    let colour = |node: usize, colour: usize| 1 << (3 * (node % 5) + colour);
    let mut rules: Vec<Rule> = (0..5).map(|node| rule(&[(HEAD, 0b111 << (3 * node))])).collect();
    for node in 0..5 {
        rules.extend((0..3).map(|c| rule(&[(PLAIN, colour(node, c) | colour(node + 1, c))])));
    }
    rules.push(rule(&[(NOT_K, colour(0, 0))]));
    rules.push(rule(&[(NOT_M, colour(1, 1) | colour(2, 2))]));
    rules.push(names_negations(0b1_0010_0100, 0b1111_0000));
    rules
}
