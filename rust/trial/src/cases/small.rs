//! Small sheets. Each is judged at every guess and listed, with buffers that just suffice and others, and asked for
//! every atom; where no answer is by hand, the second solver gives it.

use super::{guesses, listed::listed, Case};
use crate::known;
use crate::request::QUERY;
use crate::text::good;

/// A sheet a line, and what it shows. A line with `?` alone stands for four sheets, with K, not K, M and not M in its
/// place; one with `!` too for four, with K or not K and M or not M in their places.
const SHEETS: &str = include_str!("../../cases/small.txt");

/// More guesses are verified than are views.
pub const VERIFIED_AND_COVERED: &str = "\
a b: a | b <- M a, M b
a b c: b | c <- not K a; a | b <- not K a; a <- not M c
a b c: a | b <- M c; a | b <- M a, M b; b | c <- K b, not K b
a b c: a | b | c <- not a, M b, not K a; a <- not c, not not b, K a, M b, not M a; c <- M b, not M c
a b c: a | c <- not K b, not M b; b | c <- M a, not K b; a | b <- M a, not K c
a b: a <- not not b, M b, not K a, not K b; a | b <- M b, not M a; b <- not not a, not not b";

/// The first of those: both guesses 0 and 3 are verified, and 3 covers 0.
pub const EITHER: &str = "a b: a | b <- M a, M b";

/// A constraint that is sure by F.
const SURE_CONSTRAINT: &str = "a b: a; <- a, not b; b <- K b";

/// The clauses of "Ruling out", with a guess and its T and F by hand: T and F beyond facts, sure disjunctions, which
/// add nothing to T, loops that are not in F, pairs, which add nothing to either.
pub const RULING_OUT: [(&str, u16, &str, &str); 15] = [
    ("a b c d: a; b <- a; c <- not not b; d <- c, not K d", 0, "abc", ""),
    ("a b c: a | b; a <- c; c <- not K b", 1, "ac", ""),
    ("a b c d: a | b | c; b <- d; c <- d, a; d <- K a, M c", 3, "", "d"),
    ("a b c d: b <- a; c <- b; d <- not not c, M d", 0, "", "abcd"),
    ("a b c: a; b <- not a; c <- M b; c <- not K c", 0, "a", "b"),
    ("a b c: a <- b; b <- a; c <- M a, not K b", 3, "c", ""),
    ("a b: a <- not not b; b <- not not a; a <- K a, M b", 3, "", ""),
    (SURE_CONSTRAINT, 1, "a", "b"),
    ("a b: a <- not not a; <- a, not b; b <- M b", 0, "", ""),
    ("a b: a <- not not a; <- not K a, M b; b <- not a", 3, "", ""),
    ("a b: <-; a <- K a, M b", 2, "", "b"),
    ("a b: a <- b, not b; b <- not not b, M a", 1, "", ""),
    ("a b c: a; b | c; b <- M c; a <> b", 0, "a", ""),
    ("a b c: a; b <- not not b; c <- M b; a <> b", 1, "ac", ""),
    ("a b c: a <- M b; b <- not K c; c <- b; a <> b", 3, "abc", ""),
];

/// A line of the sheets, with what stands for `?` and `!`.
fn expanded(line: &str) -> Vec<String> {
    let kinds = match (line.contains('?'), line.contains('!')) {
        (false, _) => vec![("", "")],
        (true, false) => vec![("K", ""), ("not K", ""), ("M", ""), ("not M", "")],
        (true, true) => vec![("K", "M"), ("K", "not M"), ("not K", "M"), ("not K", "not M")],
    };
    kinds.into_iter().map(|(one, other)| line.replace('?', one).replace('!', other)).collect()
}

/// The sheets, with what they are called in messages.
pub fn sheets() -> Vec<(String, Vec<u8>)> {
    let lines = SHEETS.lines().chain(VERIFIED_AND_COVERED.lines()).chain(RULING_OUT.map(|(text, ..)| text));
    let texts = lines.flat_map(expanded).map(|text| (text.clone(), good(&text)));
    let known = known::all().into_iter().map(|known| (known.title.to_string(), known.sheet));
    known.chain(texts).collect()
}

pub fn cases() -> Vec<Case> {
    let either = listed(EITHER, good(EITHER)).counted([1, 3, 0, 1, 0, 0]).longer(5);
    let mut cases =
        [either, listed(SURE_CONSTRAINT, good(SURE_CONSTRAINT)).counted([0, 0, 1, 1, 1, 0]).longer(5)].concat();
    for (title, sheet) in sheets() {
        cases.extend(guesses::every(&title, &sheet));
        cases.extend((0..=sheet[0].into()).map(|atom| Case::new(&title, QUERY, &sheet, atom, 1)));
        cases.extend(listed(title, sheet).all_lengths(5));
    }
    cases
}
