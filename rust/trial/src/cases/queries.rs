//! Queries of every atom of a sheet, each answer and the six counts by hand.

use super::{listed::listed, Case};
use crate::request::QUERY;
use crate::text::good;

/// The answers, by the numbers that stand for them.
const ANSWERS: [&str; 4] = ["yes", "no", "open", "none"];

/// What follows the call in the line of an answer; of none, where the sheet has no such atom, refusal 10.
pub fn owed(answer: Option<&str>) -> String {
    match answer {
        Some(answer) => format!("0 {} : ..", ANSWERS.iter().position(|&name| name == answer).expect(answer)),
        None => "10 0 : ..".to_string(),
    }
}

/// A sheet with its six counts, and the answers for its atoms in turn. Sheets without a world view: no guess is tested;
/// those tested have no set, find another, or the one and the other; atoms that are facts, or in no head. Sheets with
/// one or two: "yes", "no" and "open" beside each other.
const QUERIED: [(&str, [u16; 6], &str); 8] = [
    ("a b: <-", [0, 0, 1, 0, 0, 0], "none none"),
    ("a: <- not K a", [0, 0, 2, 0, 0, 0], "none"),
    ("a b c: a; b <- not b", [0, 0, 0, 1, 1, 0], "none none none"),
    ("a: a <- M a; <- K a", [0, 0, 2, 2, 0, 2], "none"),
    ("a b: a | b <- not a, not K b", [0, 0, 0, 2, 1, 1], "none none"),
    ("a b c: a; b <- not not b", [1, 0, 0, 1, 0, 0], "yes open no"),
    ("a b c d: a <- not K b; b <- not K a; c", [2, 1, 1, 2, 0, 0], "open open yes no"),
    ("a b c d: c; a <- not K b; b <- not K a; <- K b", [1, 1, 2, 1, 0, 0], "yes no yes no"),
];

/// An atom's answer, or refusal 10 where the sheet has no such atom.
fn case(text: &str, atom: usize, answer: Option<&str>) -> Case {
    Case::new(text, QUERY, &good(text), atom as u32, 2).owing(&owed(answer))
}

pub fn cases() -> Vec<Case> {
    let mut cases = Vec::new();
    for (text, counts, answers) in QUERIED {
        let answers: Vec<&str> = answers.split(' ').collect();
        cases.extend((0..=answers.len()).map(|atom| case(text, atom, answers.get(atom).copied())));
        cases.extend(listed(text, good(text)).counted(counts).longer(2));
    }
    cases
}
