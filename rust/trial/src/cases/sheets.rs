//! Sheets that several cases have, and what long ones are made with.

use crate::solver::sheet::{read, Pair, Rule};
use crate::text::good;
use crate::write::*;

/// Two guesses; 39 bytes, of which the last is the pair count.
pub const GOOD: &str = "a b: a | b; a <- K b";

/// Twelve negations of six atoms.
pub const SIX: &str = "a b c d e f: a <- not K b; b <- not K a; c <- M a, not M d; d <- M b, not K e; e | f <- not M c
    e <- K f; f <- not not f, M e; <- K c, K d; a <- not M f, not not b; b <- M f, K d";

/// The first letters.
pub fn letters(count: usize) -> &'static str {
    &"abcdefghijklmnopqrstuvwxyz"[..count]
}

/// A sheet whose atoms are these letters, with rules as text.
pub fn over(atoms: &str, rules: &str) -> Vec<u8> {
    let names: String = atoms.chars().map(|atom| format!("{atom} ")).collect();
    good(&format!("{names}: {rules}"))
}

/// The rules for each of these letters, which stands for x in them.
pub fn each(atoms: &str, rules: &str) -> String {
    atoms.chars().map(|atom| rules.replace('x', &atom.to_string()) + ";").collect()
}

/// A literal for each of these letters.
pub fn literals(atoms: &str, literal: &str) -> String {
    let parts: Vec<String> = atoms.chars().map(|atom| literal.replace('x', &atom.to_string())).collect();
    parts.join(", ")
}

/// The subsets of so many of these letters, in the order of their letters.
pub fn combinations(letters: &str, size: u32) -> Vec<String> {
    let subset = |mask: u32| letters.chars().enumerate().filter(move |(i, _)| mask >> i & 1 == 1).map(|(_, c)| c);
    let masks = (0u32..1 << letters.len()).filter(|mask| mask.count_ones() == size);
    let mut found: Vec<String> = masks.map(|mask| subset(mask).collect()).collect();
    found.sort();
    found
}

/// Every set of these atoms is stable.
pub fn free(atoms: usize) -> Vec<u8> {
    lettered(atoms, &choices(0..atoms))
}

/// Twelve atoms, each from this mask of another.
pub fn each_from(mask: usize, other: impl Fn(usize) -> usize) -> Vec<u8> {
    let rules: Vec<Rule> = (0..12).map(|atom| rule(&[(HEAD, 1 << atom), (mask, 1 << other(atom))])).collect();
    lettered(12, &rules)
}

/// Six twos of atoms, each there unless the other is known.
pub fn twos() -> Vec<u8> {
    each_from(NOT_K, |atom| atom ^ 1)
}

/// Twelve atoms, in each group each there unless another of it is known.
pub fn one_known(groups: &[&str]) -> Vec<u8> {
    let from_others = |group: &str, x: char| format!("{x} <- {};", literals(&group.replace(x, ""), "not K x"));
    let rules: String = groups.iter().flat_map(|group| group.chars().map(|x| from_others(group, x))).collect();
    over(letters(12), &rules)
}

/// Twelve atoms under M.
pub fn twelve_m() -> Vec<u8> {
    let mut rules = choices(0..4);
    rules.extend((0..8).map(|i| rule(&[(HEAD, 16 << i), ([M, NOT_M][i % 2], 1 << i), (NOT, 1 << (11 - i))])));
    rules.extend((8..12).map(|i| rule(&[(HEAD, 16 + 32), (M, 1 << i)])));
    lettered(12, &rules)
}

/// 15 names of 12 bytes.
pub fn long_names() -> Vec<String> {
    letters(15).chars().map(|letter| format!("word_number{letter}")).collect()
}

/// A rule with all 15 atoms in masks 0 to 3.
pub const FULL: Rule = [32_767, 32_767, 32_767, 32_767, 0, 0, 0, 0];

/// Each of the first fourteen atoms in a pair.
pub const SEVEN: [Pair; 7] = [[0, 1], [2, 3], [4, 5], [6, 7], [8, 9], [10, 11], [12, 13]];

/// 1,236 bytes. Lengths of names at 1, 14, .., 183; the rule count at 196; rules at 197, .., 1205; the pair count at
/// 1221; pairs at 1222, .., 1234.
pub fn longest() -> Vec<u8> {
    sheet_with(&long_names(), &[[32_767, 32_767, 32_767, 32_767, 63, 0, 0, 63]; 64], &SEVEN)
}

/// 64 rules over 15 atoms, without negations.
pub fn many_rules() -> Vec<Rule> {
    let masks = |i: usize| [(HEAD, 1 << (i % 15)), (NOT, 1 << ((i * i + i / 15 + 1) % 15)), (NOT_NOT, 1 << (i % 3))];
    (0..64).map(|i| rule(&masks(i))).collect()
}

/// Sheets of one-letter names as one sheet, the atoms renamed.
pub fn beside(parts: &[Vec<u8>]) -> Vec<u8> {
    let (mut rules, mut pairs, mut atoms) = (Vec::new(), Vec::new(), 0);
    for part in parts {
        let part = read(part).expect("an accepted sheet");
        rules.extend(part.rules.iter().map(|rule| rule.map(|mask| mask << atoms)));
        pairs.extend(part.pairs.iter().map(|pair| pair.map(|atom| atom + atoms)));
        atoms += part.names.len() as u8;
    }
    lettered_with(atoms.into(), &rules, &pairs)
}

/// The sheet with another byte at a place.
pub fn put(sheet: &[u8], place: usize, byte: u8) -> Vec<u8> {
    let mut sheet = sheet.to_vec();
    sheet[place] = byte;
    sheet
}

/// The sheet and more bytes.
pub fn add(sheet: &[u8], more: &[u8]) -> Vec<u8> {
    [sheet, more].concat()
}

/// Refused sheets, with number and place.
pub fn bad() -> Vec<([u32; 2], Vec<u8>)> {
    let good = good(GOOD);
    vec![
        ([1, 0], vec![]),
        ([1, 1], vec![0]),
        ([1, 37], good[..37].to_vec()),
        ([1, 38], good[..38].to_vec()),
        ([1, 40], add(&put(&good, 38, 1), &[0])),
        ([1, 4], good[..4].to_vec()),
        ([2, 0], vec![16]),
        ([2, 1], vec![0, 65]),
        ([2, 5], put(&good, 5, 65)),
        ([2, 38], put(&good, 38, 8)),
        ([3, 1], put(&good, 1, 0)),
        ([3, 3], put(&good, 3, 13)),
        ([3, 2], put(&good, 2, b'A')),
        ([4, 3], sheet(&["a", "a"], &[rule(&[(HEAD, 1)])])),
        ([5, 6], put(&good, 6, 4)),
        ([5, 36], put(&good, 37, 128)),
        ([6, 39], add(&good, &[0])),
        ([6, 3], vec![0; 4]),
        ([7, 0], lettered(13, &[rule(&[(K, 8_191)])])),
        ([7, 0], lettered(7, &[rule(&[(HEAD, 1), (NOT_K, 127), (M, 63)])])),
        ([15, 39], add(&put(&good, 38, 1), &[0, 2])),
        ([15, 27], lettered_with(3, &[rule(&[(HEAD, 1)])], &[[0, 1], [2, 0]])),
    ]
}
