//! Cases of the calls on sheets with pairs, with answers by hand from document 02.

use super::listed::listed;
use super::masks::{answered, Day};
use super::rows::rows;
use super::sheets::SEVEN;
use super::{spaced, Case};
use crate::request::{BELIEF_SETS, VERDICT};
use crate::solver::sheet::{Pair, Rule};
use crate::write::*;

/// A sheet and masks a line, with all that the four calls owe, as the table of the day masks has it.
const ANSWERED: &str = include_str!("../../cases/opposites.txt");

/// The atoms that are first in the seven pairs.
const FIRST: u16 = 0x1555;

pub fn cases() -> Vec<Case> {
    let parts = [choices_in_pairs, fifteen_choices, each_pair, sixty_four_rules, twelve_negations];
    rows(ANSWERED).flat_map(answered).chain(parts.into_iter().flat_map(|part| part())).collect()
}

/// One guess, which is verified: its belief sets, the verdict and the list, of one view.
fn verified(day: &Day, sets: &str, numbers: &str) -> Vec<Case> {
    [day.guess(0, sets, &format!("2 {numbers}")), day.list("1 0 0 1 0 0", &format!("0 {numbers}"))].concat()
}

/// The same of a guess without belief sets, which is tested or ruled.
fn without_sets(day: &Day, counts: &str) -> Vec<Case> {
    [day.guess(0, "", "0"), day.list(counts, "")].concat()
}

/// One to four pairs of choices: the sets that have at most one bit of each pair.
fn choices_in_pairs() -> Vec<Case> {
    let has_no_pair = |set: &u32| (0..4).all(|pair| set >> (2 * pair) & 3 != 3);
    let mut cases = Vec::new();
    for count in 1..=4 {
        let sets: Vec<u32> = (0..1 << (2 * count)).filter(has_no_pair).collect();
        let sheet = lettered_with(2 * count, &choices(0..2 * count), &SEVEN[..count]);
        let numbers = [0, (1 << (2 * count)) - 1, 3_u32.pow(count as u32)];
        let day = Day::new(&format!("{count} pairs of choices"), &sheet, [0, 0]);
        cases.extend(verified(&day, &spaced(&sets), &spaced(&numbers)));
    }
    cases
}

/// Seven pairs and an atom: three ways for each pair and two for the atom. With the first of each pair in, the atom is
/// left; with both of a pair, nothing.
fn fifteen_choices() -> Vec<Case> {
    let (title, sheet) = ("15 choices, 7 pairs", lettered_with(15, &choices(0..15), &SEVEN));
    let all = Day::new(title, &sheet, [0, 0]);
    let mut cases = vec![
        all.owing(VERDICT, 0, 0, "0 2 0 32767 4374 :"),
        all.owing(BELIEF_SETS, 0, 3, "9 4374 : .."),
        Day::new(title, &sheet, [0, 16_384]).owing(VERDICT, 0, 0, "0 2 0 16383 2187 :"),
        Day::new(title, &sheet, [8_192, 0]).owing(VERDICT, 0, 0, "0 2 8192 28671 1458 :"),
    ];
    cases.extend(all.list("1 0 0 1 0 0", "0 0 32767 4374"));
    cases.extend(verified(&Day::new(title, &sheet, [FIRST, 0]), "5461 21845", "5461 21845 2"));
    cases.extend(verified(&Day::new(title, &sheet, [FIRST, 16_384]), "5461", "5461 5461 1"));
    for both in SEVEN.map(bits) {
        cases.extend(without_sets(&Day::new(title, &sheet, [both, 0]), "0 0 0 1 1 0"));
    }
    cases
}

/// The set of a pair's atoms.
fn bits([one, other]: Pair) -> u16 {
    1 << one | 1 << other
}

/// The first atom of each pair a fact, and of one pair the second too: the guess is contradicted. Where that one is a
/// choice it is not there.
fn each_pair() -> Vec<Case> {
    let firsts: Vec<Rule> = SEVEN.iter().map(|pair| rule(&[(HEAD, 1 << pair[0])])).collect();
    let with = |more: Rule| lettered_with(15, &[&firsts[..], &[more]].concat(), &SEVEN);
    let mut cases = Vec::new();
    for (number, pair) in SEVEN.iter().enumerate() {
        let second = 1 << pair[1];
        let (fact, choice) = (with(rule(&[(HEAD, second)])), with(rule(&[(HEAD, second), (NOT_NOT, second)])));
        let title = format!("both atoms of pair {number}");
        cases.extend(without_sets(&Day::new(&title, &fact, [0, 0]), "0 0 1 0 0 0"));
        cases.extend(verified(&Day::new(&title, &choice, [0, 0]), "5461", "5461 5461 1"));
    }
    cases
}

/// 64 rules and seven pairs, "c ← a" being the last rule: with a and d in, c would be there too.
fn sixty_four_rules() -> Vec<Case> {
    let always = rule(&[(HEAD, 1), (PLAIN, 1)]);
    let rules = [choices(0..15), vec![always; 48], vec![rule(&[(HEAD, 4), (PLAIN, 1)])]].concat();
    let (title, sheet) = ("64 rules, 7 pairs", lettered_with(15, &rules, &SEVEN));
    let day = |masks| Day::new(title, &sheet, masks);
    [
        verified(&day([1, 0x7FFF - 1 - 4]), "5", "5 5 1"),
        verified(&day([0x5555, 0]), "21845", "21845 21845 1"),
        verified(&day([8, 0x7FFF - 8 - 16_384]), "8 16392", "8 16392 2"),
        without_sets(&day([1 + 8, 0]), "0 0 0 1 1 0"),
        without_sets(&day([3, 0]), "0 0 0 1 1 0"),
        without_sets(&day([0x3000, 0]), "0 0 0 1 1 0"),
    ]
    .concat()
}

/// Twelve atoms, each from M of itself, in six pairs. Of a pair's guesses 1 and 2 are verified and 0 is covered; 3 makes
/// both atoms facts and is ruled.
fn twelve_negations() -> Vec<Case> {
    let rules: Vec<Rule> = (0..12).map(|atom| rule(&[(HEAD, 1 << atom), (M, 1 << atom)])).collect();
    let one_of_each = |guess: &u16| (0..6).all(|pair| [1, 2].contains(&(guess >> (2 * pair) & 3)));
    let views: Vec<[u16; 4]> = (0..4096).filter(one_of_each).map(|guess| [guess, guess, guess, 1]).collect();
    let three = 3_u16.pow(6);
    let sheet = lettered_with(12, &rules, &SEVEN[..6]);
    listed("six pairs of opposites", sheet).counted([64, three - 64, 4096 - three, 64, 0, 0]).views(&views).edges()
}
