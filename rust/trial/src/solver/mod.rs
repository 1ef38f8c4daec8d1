//! The second solver: every call of document 01 and of K1, K3, K4, K5 and K7 of document 02, from their definitions.
//!
//! Stable sets come from a branching search with propagation, minimality from a second search for a smaller model;
//! every guess is judged by itself, and world views are the verified guesses that are maximal among all verified ones.
//! A calendar is walked through the week minute by minute. Pairs and day masks become constraints, which are rules like
//! others. For a shared allowance each sheet is listed to its end, and turns are dealt out afterwards.

pub mod calendar;
pub mod calls;
pub mod guess;
pub mod lines;
pub mod listing;
mod reader;
pub mod refusal;
pub mod ruling;
pub mod search;
pub mod sharing;
pub mod sheet;
pub mod stable;

/// A set of atoms: bit i means atom i.
pub type Set = u16;

/// The atoms of a set, by number.
pub fn members(set: Set) -> impl Iterator<Item = usize> {
    (0..16).filter(move |&atom| has(set, atom))
}

/// Whether an atom is in a set.
pub fn has(set: Set, atom: usize) -> bool {
    set >> atom & 1 == 1
}

/// Whether a set is within another.
pub fn within(set: Set, other: Set) -> bool {
    set & !other == 0
}

/// Whether two sets have a member in common.
pub fn meet(set: Set, other: Set) -> bool {
    set & other != 0
}
