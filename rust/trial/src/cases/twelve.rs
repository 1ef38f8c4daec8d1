//! Cases of the list on sheets of twelve negations, most of them with counts by hand.

use super::listed::listed;
use super::sheets::*;
use super::small::EITHER;
use super::Case;
use crate::known::titled;
use crate::text::good;
use crate::write::{NOT_K, NOT_M};

/// Twelve letters.
const ATOMS: &str = "abcdefghijkl";

/// Six atoms in a loop.
const LOOP: &str = "a <- b; b <- c; c <- d; d <- e; e <- f; f <- a;";

/// Of each two one atom is known. A guess with both negations of a two is ruled, one with one of each two is a view,
/// the rest are covered.
const TWOS: [u16; 6] = [64, 3u16.pow(6) - 64, 4096 - 3u16.pow(6), 64, 0, 0];

/// Sheets of four negations.
const FOUR: [&str; 3] = [
    "a b: a | b <- not not a; b <- K a, K b, M b, not M a, not M b; <- K b, not M a; <- M a, not K a, not K b",
    "a b c: b <- not K b, not not b; a | b; a | c <- a, not a, not b, not not c, K c; b | c <- M b, not M c
     <- not not b",
    "a b: b <- a, not not b, K b, M b, not M b; <- a, not K a, not M b; a <- M a, M b, not K a; a | b <- not b",
];

/// Those side by side that have guesses of every name.
const BESIDE: [(&str, [usize; 3]); 4] = [
    ("four negations, the first thrice", [0, 0, 0]),
    ("four negations, the first twice and the second", [0, 0, 1]),
    ("four negations, all three", [2, 1, 0]),
    ("four negations, the third thrice", [2, 2, 2]),
];

pub fn cases() -> Vec<Case> {
    let parts = [none_or_one, ruled, tested, groups, at_most, side_by_side, fifteen_atoms];
    let every_name = every_name().into_iter().flat_map(|(title, sheet)| listed(title, sheet).edges());
    parts.into_iter().flat_map(|part| part()).chain(every_name).collect()
}

/// No view, or one.
fn none_or_one() -> Vec<Case> {
    let each_of = |atoms: &str, rules: &str| over(atoms, &each(atoms, rules));
    // One view, the guess of all; every other guess is covered.
    let all = [1, 4095, 0, 1, 0, 0];
    let mut cases = listed("12 atoms, each from K of itself", each_of(ATOMS, "x <- K x")).counted(all).edges();
    cases.extend(listed("12 atoms, each from M of itself", each_of(ATOMS, "x <- M x")).counted(all).longer(60));
    // A guess with some "not K a" has a in T. Guess 0 is tested: its W is empty.
    let none = listed("12 atoms, each from not K of itself", each_of(ATOMS, "x <- not K x"));
    cases.extend(none.counted([0, 0, 4095, 1, 1, 0]).cells(&[0, 101]));
    // A guess with both negations of an atom is ruled. The view's has each "M" and no "not K". In the rest some atom
    // has "not K" alone, and both its negations are in the guess found.
    let both = listed("six atoms, each from K and from M of itself", each_of("abcdef", "x <- K x; x <- M x"));
    let three = 3u16.pow(6);
    cases.extend(both.counted([1, 63, 4096 - three, three - 63, 0, three - 64]).edges());
    cases
}

/// Every guess is ruled.
fn ruled() -> Vec<Case> {
    let all = [0, 0, 4096, 0, 0, 0];
    let empty = over("abcdef", &("<-;".to_string() + &each("abcdef", "x <- K x, M x")));
    let fact = over("abcdef", &format!("<- a; a; b <- {}", literals("abcdef", "K x, M x")));
    let mut cases = listed("every guess ruled by an empty rule", empty).counted(all).cells(&[0, 9]);
    cases.extend(listed("every guess ruled by a fact and a constraint", fact).counted(all).cells(&[0, 17]));
    cases
}

/// No guess is ruled.
fn tested() -> Vec<Case> {
    // A loop is not in F. Guess 0 is the view, every other is "other".
    let rules = format!("{LOOP} {} a <- a, {}", each("ghijkl", "x <- a"), literals(ATOMS, "M x"));
    let one_view = listed("every guess tested, one view", over(ATOMS, &rules)).counted([1, 0, 0, 4096, 0, 4095]);
    // p and q exclude each other and both are excluded: every W is empty, and T and F are too.
    let choices = each("abcdef", "x <- not not x");
    let both = literals("abcdef", "K x, M x");
    let excluded = over("abcdefpq", &format!("{choices} p <- not q; q <- not p; <- p; <- q; p <- p, {both}"));
    let empty = listed("every guess tested and empty", excluded).counted([0, 0, 0, 4096, 4096, 0]);
    // The loop's guess found is "not K" of all six: a view with 63 subsets.
    let six = listed("six in a loop, K and M of each", over("abcdef", &format!("{LOOP} a <- a, {both}")));
    [one_view.cells(&[4]), empty.cells(&[0, 11]), six.counted([1, 63, 0, 4033, 0, 4032]).longer(5)].concat()
}

/// Many views: some atoms of each group are known.
fn groups() -> Vec<Case> {
    let one_known = |title, groups: &[&str], counts| listed(title, one_known(groups)).counted(counts);
    let two_of = |group: &str, x: char| -> String {
        let others = combinations(&group.replace(x, ""), 2);
        others.iter().map(|two| format!("{x} <- {};", literals(two, "not K x"))).collect()
    };
    let fours = ["abcd", "efgh", "ijkl"];
    let two_known: String = fours.iter().flat_map(|group| group.chars().map(|x| two_of(group, x))).collect();
    let triples =
        one_known("four triples, one known of each", &["abc", "def", "ghi", "jkl"], [81, 2320, 1695, 81, 0, 0]);
    let mixed = [35, 31 * 127 - 35, 4096 - 31 * 127, 35, 0, 0];
    [
        listed("six twos, not K", twos()).counted(TWOS).cells(&[256, 255, 0]),
        listed("six twos, not M", each_from(NOT_M, |atom| atom ^ 1)).counted(TWOS).edges(),
        listed("six twos of atoms far apart", each_from(NOT_K, |atom| 11 - atom)).counted(TWOS).longer(2),
        triples.edges(),
        one_known("one known of twelve", &[ATOMS], [12, 4096 - 13, 1, 12, 0, 0]).edges(),
        one_known("one known of five and of seven", &["acegi", "bdfhjkl"], mixed).longer(30),
        listed("three fours, two known of each", over(ATOMS, &two_known))
            .counted([216, 11 * 11 * 11 - 216, 4096 - 11 * 11 * 11, 216, 0, 0])
            .longer(0),
    ]
    .concat()
}

/// Choices. More than `most` negations of a group leave no sets; with `most`, its other atoms are known. Of each group
/// its views and its guesses of at most `most`: both are the products.
fn at_most() -> Vec<Case> {
    let sheet = |groups: [(&str, u32); 2]| {
        let constraints = |(group, most)| each_constraint(&combinations(group, most + 1));
        over(ATOMS, &(each(ATOMS, "x <- not not x") + &groups.map(constraints).concat()))
    };
    let counts = |views: u16, allowed: u16| [views, allowed - views, 4096 - allowed, views, 0, 0];
    // Of six atoms 20 sets of three and 42 of at most three.
    let threes =
        listed("at most 3 of six, twice", sheet([("abcdef", 3), ("ghijkl", 3)])).counted(counts(20 * 20, 42 * 42));
    // Of seven atoms 35 sets of three and 64 of at most three; of five atoms 10 of two and 16 of at most two.
    let mixed = sheet([("acegikl", 3), ("bdfhj", 2)]);
    let mixed = listed("at most 3 of seven and 2 of five", mixed).counted(counts(35 * 10, 64 * 16));
    [threes.longer(0), mixed.longer(200)].concat()
}

fn each_constraint(sets: &[String]) -> String {
    sets.iter().map(|set| format!("<- {};", literals(set, "not K x"))).collect()
}

fn side_by_side() -> Vec<Case> {
    let (two, either) = (titled("6:").sheet, good(EITHER));
    let sheets = [&two, &either, &either, &two, &either, &two].map(Vec::clone);
    // Of each "verified and covered" both negations are in the view's guess; of each two one is.
    let counts = [8, 27 * 64 - 8, 37 * 64, 8, 0, 0];
    let own = ["own 4:", "own 6:", "own 4:", "6:"].map(|title| titled(title).sheet);
    [
        listed("three twos, and three of verified and covered", beside(&sheets)).counted(counts).edges(),
        listed("own sheets 4, 6 and 4, and known sheet 6, side by side", beside(&own)).longer(5),
        listed("15 atoms, six twos and three choices", beside(&[twos(), free(3)])).cells(&[256]),
        listed("12 negations of 6 atoms", good(SIX)).longer(5),
        listed("12 M of 12 atoms", twelve_m()).longer(46),
    ]
    .concat()
}

/// All but sixteen guesses are contradicted by facts; the sixteen are the view's and its subsets.
fn fifteen_atoms() -> Vec<Case> {
    let rules = "i | j; k | l <- not K i; m | n | o <- not K k, not K j; <- K l, m; i <- n, not o";
    let rules = format!("{} {rules}; a <- {}", each("abcdefgh", "x"), literals(ATOMS, "K x"));
    let sheet = over(letters(15), &rules);
    listed("15 atoms, eight facts, 12 negations", sheet).counted([1, 15, 4096 - 16, 1, 0, 0]).longer(5)
}

/// The sheets with guesses of every name.
pub fn every_name() -> [(&'static str, Vec<u8>); 4] {
    BESIDE.map(|(title, parts)| (title, beside(&parts.map(|part| good(FOUR[part])))))
}
