//! Cases of the verdict on a guess and of its belief sets: long buffers, limits, refusals.

use super::sheets::*;
use super::{spaced, Case};
use crate::known;
use crate::request::{BELIEF_SETS, CHECK, MOST_CELLS, VERDICT};
use crate::solver::calls::open;
use crate::text::good;
use crate::write::lettered;

const FOUR_SETS: &str = "a b c: a <- not not a; b | c; <- K c"; // at guess 1
const EMPTY: &str = "a: <- M a; a";

/// Guesses out of range; and how many sets the guess before has at most.
const OUT_OF_RANGE: [(&str, &str, usize); 4] =
    [("no negations", "a b: a | b", 2), ("one negation", GOOD, 2), ("four sets", FOUR_SETS, 4), ("empty W", EMPTY, 0)];

pub fn cases() -> Vec<Case> {
    let parts = [known_views, free_choices, limits, of_twelve, out_of_range, refused];
    parts.into_iter().flat_map(|part| part()).collect()
}

/// Both calls; belief sets with so many cells.
fn calls(title: &str, sheet: &[u8], guess: u32, cells: usize) -> [Case; 2] {
    [Case::new(title, VERDICT, sheet, guess, 0), Case::new(title, BELIEF_SETS, sheet, guess, cells)]
}

/// Both calls, refused so by hand.
fn refusals(title: &str, sheet: &[u8], guess: u32, cells: usize, numbers: [u32; 2]) -> [Case; 2] {
    calls(title, sheet, guess, cells).map(|case| case.owing(&format!("{} : ..", spaced(&numbers))))
}

/// A verdict by hand: verified, with known, possible and the number of sets.
fn verified(title: &str, sheet: &[u8], guess: u32, numbers: [u32; 3]) -> Case {
    Case::new(title, VERDICT, sheet, guess, 0).owing(&format!("0 2 {} :", spaced(&numbers)))
}

/// How many belief sets each guess has.
fn sizes(sheet: &[u8]) -> Vec<usize> {
    let opened = open(sheet).expect("an accepted sheet");
    (0..1 << opened.check()[2]).map(|guess| opened.sets_of(guess).len()).collect()
}

/// Every guess and the first one out of range, with at least two cells more than sets; where there are few guesses,
/// with as many cells as sets, one less and one more too.
pub fn every(title: &str, sheet: &[u8]) -> Vec<Case> {
    let sizes = sizes(sheet);
    let most = sizes.iter().max().map_or(0, |most| most + 2);
    let mut cases: Vec<Case> = (0..=sizes.len() as u32).flat_map(|guess| calls(title, sheet, guess, most)).collect();
    if sizes.len() <= 4 {
        let lengths = |size: usize| [size, size.saturating_sub(1), size + 1];
        let closely = |(guess, size)| lengths(size).map(|cells| Case::new(title, BELIEF_SETS, sheet, guess, cells));
        cases.extend((0..).zip(sizes).flat_map(closely));
    }
    cases
}

/// The sheets with known lists: each view's guess is verified, with the numbers of its record.
fn known_views() -> Vec<Case> {
    let mut cases = Vec::new();
    for known in known::all() {
        for view in known.views {
            let [guess, numbers @ ..] = view.map(u32::from);
            cases.push(verified(known.title, &known.sheet, guess, numbers));
        }
    }
    cases
}

/// Free choices: every set of atoms is stable.
fn free_choices() -> Vec<Case> {
    let mut cases = Vec::new();
    for (atoms, lengths) in [(8, &[255, 256, 257][..]), (10, &[1_025]), (14, &[255]), (15, &[255, MOST_CELLS.into()])] {
        let (sheet, title) = (free(atoms), format!("{atoms} choices"));
        let sets: Vec<u32> = (0..1 << atoms).collect();
        for &cells in lengths {
            let by_hand = match cells < sets.len() {
                true => format!("9 {} : ..", sets.len()),
                false => format!("0 {} : {} ..", sets.len(), spaced(&sets)),
            };
            cases.push(Case::new(&title, BELIEF_SETS, &sheet, 0, cells).owing(&by_hand));
        }
        cases.push(verified(&title, &sheet, 0, [0, (1 << atoms) - 1, 1 << atoms]));
        let [verdict, sets] = refusals(&format!("{title}, guess out of range, too few cells"), &sheet, 1, 255, [8, 0]);
        cases.push(verdict);
        cases.extend((atoms == 8).then_some(sets));
    }
    cases
}

/// Limits of atoms, negations and rules.
fn limits() -> Vec<Case> {
    let (fifteen, longest) = (letters(15), longest());
    let mut cases = Vec::new();
    let mut add = |title: &str, sheet: &[u8], guesses: &[u32], cells| {
        cases.extend(guesses.iter().flat_map(|&guess| calls(title, sheet, guess, cells)));
    };
    add("15 atoms, no rules", &lettered(15, &[]), &[0, 1], 2);
    add("15 facts", &over(fifteen, &each(fifteen, "x")), &[0, 1], 2);
    add("15 atoms, 64 rules", &lettered(15, &many_rules()), &[0, 1], 20);
    add("longest sheet", &longest, &[1364, 1365, 1366], 1);
    add("longest sheet, one cell short", &longest, &[1365], 0);
    add("longest sheet, last guess and one out of range", &longest, &[4095, 4096], 2);
    // "Not K" of six atoms, "M" of none.
    cases.push(verified("longest sheet", &longest, 1365, [0, 0, 1]));
    cases.extend(every("not K a in rule 63", &over("ab", &("a <- a;".repeat(63) + "b <- not K a"))));
    cases.extend(every("32 rules with K a and 32 facts in turn", &in_turn()));
    cases
}

/// Guess 1 deletes rules 0, 2, .., 62. The others are disjunctions of two, all pairs of nine atoms but four: W has five
/// sets, and without any one of these rules it is another.
pub fn in_turn() -> Vec<u8> {
    let pairs =
        combinations("bcdefghij", 2).into_iter().filter(|pair| !["bc", "de", "fg", "hi"].contains(&pair.as_str()));
    let rules: String = pairs.map(|pair| format!("{0} <- K a; {0} | {1};", &pair[..1], &pair[1..])).collect();
    over(letters(10), &rules)
}

/// Twelve negations; the last guesses of each sheet are verified.
fn of_twelve() -> Vec<Case> {
    let sheets: [(&str, Vec<u8>, &[u32]); 3] = [
        ("12 negations of 6 atoms", good(SIX), &[1382, 3993]),
        ("12 not K of 12 atoms", twos(), &[1365, 2730]),
        ("12 M of 12 atoms", twelve_m(), &[3455]),
    ];
    let mut cases = Vec::new();
    for (title, sheet, verified) in sheets {
        let is_verified = |&guess| Case::new(title, VERDICT, &sheet, guess, 0).owing("0 2 ? ? ? :");
        cases.extend(verified.iter().map(is_verified));
        cases.push(Case::new(title, CHECK, &sheet, 0, 0).owing("0 ? ? 12 :"));
        let sizes = sizes(&sheet);
        for &guess in [0, 1, 5, 2047, 2048, 3000].iter().chain(verified) {
            cases.extend(calls(title, &sheet, guess, sizes[guess as usize] + 1));
        }
        for guess in 4094..4097 {
            let [verdict, sets] = calls(&format!("{title}, last guesses and one out of range"), &sheet, guess, 300);
            cases.push(verdict);
            cases.extend((guess == 4095).then_some(sets));
        }
        cases.extend(refusals(title, &sheet, 65_535, 3, [8, 0]));
    }
    cases
}

fn out_of_range() -> Vec<Case> {
    let mut cases = refusals("guess out of range, long buffer", &good(GOOD), 2, 101, [8, 0]).to_vec();
    for (title, text, sets) in OUT_OF_RANGE {
        let sheet = good(text);
        let limit = sizes(&sheet).len() as u32;
        for guess in [limit, 2 * limit, 2 * limit + 1, 4095, 4096, 32_768, 65_535] {
            let title = format!("{title}, guess out of range");
            cases.extend(refusals(&title, &sheet, guess, sets, [8, 0]));
            cases.extend(refusals(&title, &sheet, guess, sets.saturating_sub(1), [8, 0]));
        }
        cases.extend(calls(&format!("{title}, last guess, no cells"), &sheet, limit - 1, 0));
        cases.extend(refusals(&format!("{title}, guess out of range, no cells"), &sheet, limit, 0, [8, 0]));
    }
    cases
}

/// The sheet is checked first, then the guess, then the buffer.
fn refused() -> Vec<Case> {
    let mut cases = refusals("bad sheet, long buffer", &add(&longest(), &[255]), 0, 101, [6, 1236]).to_vec();
    for (numbers, sheet) in bad() {
        for (guess, cells) in [(0, 3), (1, 3), (65_535, 1), (4096, 0)] {
            cases.extend(refusals(&format!("bad sheet, refusal {}", numbers[0]), &sheet, guess, cells, numbers));
        }
    }
    cases
}
