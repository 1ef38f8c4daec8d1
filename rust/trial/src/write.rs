//! Sheets written from names, rules and pairs, calendars from entries.

use crate::solver::sheet::{Pair, Rule};
use std::ops::Range;

pub const HEAD: usize = 0;
pub const PLAIN: usize = 1;
pub const NOT: usize = 2;
pub const NOT_NOT: usize = 3;
pub const K: usize = 4;
pub const NOT_K: usize = 5;
pub const M: usize = 6;
pub const NOT_M: usize = 7;

/// A rule of some masks; the others are empty.
pub fn rule(masks: &[(usize, u16)]) -> Rule {
    let mut rule = [0; 8];
    for &(mask, atoms) in masks {
        rule[mask] = atoms;
    }
    rule
}

/// The free choice of each of these atoms: a <- not not a.
pub fn choices(atoms: Range<usize>) -> Vec<Rule> {
    atoms.map(|atom| rule(&[(HEAD, 1 << atom), (NOT_NOT, 1 << atom)])).collect()
}

/// A rule that is always true and names its negations: it sets k.
pub fn names_negations(known: u16, possible: u16) -> Rule {
    rule(&[(HEAD, 1), (PLAIN, 1), (K, known), (M, possible)])
}

/// The bytes of a sheet without pairs.
pub fn sheet<N: AsRef<[u8]>>(names: &[N], rules: &[Rule]) -> Vec<u8> {
    sheet_with(names, rules, &[])
}

/// The bytes of a sheet. Nothing is checked: too many names or too long a name make a sheet that is to be refused.
pub fn sheet_with<N: AsRef<[u8]>>(names: &[N], rules: &[Rule], pairs: &[Pair]) -> Vec<u8> {
    let mut bytes = vec![names.len() as u8];
    for name in names {
        let name = name.as_ref();
        bytes.push(name.len() as u8);
        bytes.extend(name);
    }
    bytes.push(rules.len() as u8);
    bytes.extend(rules.iter().flatten().flat_map(|mask| mask.to_le_bytes()));
    bytes.push(pairs.len() as u8);
    bytes.extend(pairs.as_flattened());
    bytes
}

/// A sheet without pairs whose atoms are named a, b, c and so on, at most 26.
pub fn lettered(atoms: usize, rules: &[Rule]) -> Vec<u8> {
    lettered_with(atoms, rules, &[])
}

/// The same with pairs.
pub fn lettered_with(atoms: usize, rules: &[Rule], pairs: &[Pair]) -> Vec<u8> {
    let names: Vec<[u8; 1]> = (b'a'..=b'z').take(atoms).map(|letter| [letter]).collect();
    sheet_with(&names, rules, pairs)
}

/// An entry of a calendar: the rule's number, the first minute and the end.
pub type Entry = (u8, u16, u16);

/// The bytes of a calendar. Nothing is checked here either.
pub fn calendar(entries: &[Entry]) -> Vec<u8> {
    let bytes = |&(rule, first, end): &Entry| {
        let ([first, first_high], [end, end_high]) = (first.to_le_bytes(), end.to_le_bytes());
        [rule, first, first_high, end, end_high]
    };
    let mut calendar = vec![entries.len() as u8];
    calendar.extend(entries.iter().flat_map(bytes));
    calendar
}

/// The bytes in base sixteen, for messages.
pub fn hex(bytes: &[u8]) -> String {
    bytes.iter().map(|byte| format!("{byte:02x}")).collect()
}
