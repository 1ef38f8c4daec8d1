//! Limit cases of the check of pairs, the third section of a sheet, with answers by hand: the refusal's number and
//! place, or 0, atoms, rules and k.

use super::check::case;
use super::sheets::{add, longest, put, SEVEN};
use super::Case;
use crate::solver::sheet::Pair;
use crate::write::*;

/// Third sections, from the pair count at 28 on, after five atoms and a rule with one negation; and the answers.
const AFTER_FIVE: [(&str, &str); 8] = [
    (
        "accepted pairs",
        "0 = 0 5 1 1 / 1 0 1 = 0 5 1 1 / 1 1 0 = 0 5 1 1 / 1 4 0 = 0 5 1 1 / 1 0 4 = 0 5 1 1 / 1 3 4 = 0 5 1 1
        2 0 1 2 3 = 0 5 1 1 / 2 4 0 3 1 = 0 5 1 1 / 2 1 0 2 4 = 0 5 1 1",
    ),
    (
        "pairs that end too soon",
        "1 = 1 29 / 1 0 = 1 30 / 2 = 1 29 / 2 0 = 1 30 / 2 0 1 = 1 31 / 2 0 1 2 = 1 32 / 7 = 1 29 / 7 0 1 2 3 = 1 33",
    ),
    ("over 7 pairs", "8 = 2 28 / 9 = 2 28 / 15 = 2 28 / 128 = 2 28 / 135 = 2 28 / 255 = 2 28"),
    (
        "an atom number that is too large",
        "1 5 0 = 15 29 / 1 0 5 = 15 29 / 1 5 6 = 15 29 / 1 6 0 = 15 29 / 1 0 6 = 15 29 / 1 0 16 = 15 29
        1 17 0 = 15 29 / 1 128 1 = 15 29 / 1 0 129 = 15 29 / 1 255 0 = 15 29 / 1 0 255 = 15 29
        2 0 1 5 2 = 15 31 / 2 0 1 2 5 = 15 31 / 2 0 1 255 2 = 15 31 / 2 0 1 2 255 = 15 31",
    ),
    (
        "an atom twice in a pair",
        "1 0 0 = 15 29 / 1 4 4 = 15 29 / 1 5 5 = 15 29 / 1 255 255 = 15 29 / 2 0 1 2 2 = 15 31 / 2 0 1 4 4 = 15 31",
    ),
    (
        "an atom of an earlier pair",
        "2 0 1 0 2 = 15 31 / 2 0 1 2 0 = 15 31 / 2 0 1 1 2 = 15 31 / 2 0 1 2 1 = 15 31 / 2 0 1 0 1 = 15 31
        2 0 1 1 0 = 15 31 / 2 3 4 4 0 = 15 31 / 2 3 4 0 3 = 15 31 / 2 4 3 4 0 = 15 31 / 2 4 3 0 4 = 15 31",
    ),
    (
        "two things wrong",
        "1 5 = 1 30 / 1 255 = 1 30 / 2 5 0 = 15 29 / 2 0 0 = 15 29 / 2 0 5 1 = 15 29 / 7 4 4 = 15 29 / 2 5 5 6 6 = 15 29
        2 0 1 0 = 1 32 / 2 0 1 5 = 1 32 / 2 0 0 0 0 = 15 29 / 3 0 1 1 2 = 15 31 / 3 0 1 2 2 3 = 15 31
        8 5 0 = 2 28 / 8 0 0 = 2 28 / 255 0 1 = 2 28 / 1 5 0 0 = 15 29 / 1 0 5 0 = 15 29 / 1 4 4 9 = 15 29
        2 0 1 1 2 0 = 15 31 / 2 0 1 2 2 0 0 = 15 31 / 2 0 1 2 5 3 4 = 15 31",
    ),
    (
        "bytes after the last pair",
        "0 0 = 6 29 / 0 1 = 6 29 / 0 0 1 = 6 29 / 0 5 5 = 6 29 / 1 0 1 0 = 6 31 / 1 0 1 2 3 = 6 31 / 1 0 1 0 1 = 6 31
        1 0 1 9 9 = 6 31 / 2 0 1 2 3 4 = 6 33 / 2 0 1 2 3 0 1 = 6 33",
    ),
];

pub fn cases() -> Vec<Case> {
    let parts = [after_five, few_atoms, many_atoms, of_longest, beside_others];
    parts.into_iter().flat_map(|part| part()).collect()
}

/// Numbers, parted by spaces.
fn numbers<T: std::str::FromStr>(text: &str) -> Vec<T> {
    let number = |number: &str| number.parse().unwrap_or_else(|_| panic!("{text}"));
    text.split_whitespace().map(number).collect()
}

fn after_five() -> Vec<Case> {
    let five = lettered(5, &[rule(&[(HEAD, 1), (K, 2)])]);
    let mut cases = vec![case("five atoms, no pair count", five[..28].to_vec(), &[1, 28])];
    for (title, rows) in AFTER_FIVE {
        for (section, answer) in rows.split(['/', '\n']).map(|row| row.split_once(" = ").expect(row)) {
            let sheet = add(&five[..28], &numbers::<u8>(section));
            cases.push(case(format!("{title}, {}", section.trim()), sheet, &numbers(answer)));
        }
    }
    cases
}

/// No atoms: pairs at 3; one: at 5; two: at 7.
fn few_atoms() -> Vec<Case> {
    let of = |atoms, pair: Pair| lettered_with(atoms, &[], &[pair]);
    vec![
        case("no atoms, count 1 alone", vec![0, 0, 1], &[1, 3]),
        case("no atoms, count 1 and a byte", vec![0, 0, 1, 0], &[1, 4]),
        case("no atoms, count 7 alone", vec![0, 0, 7], &[1, 3]),
        case("no atoms, count 8 alone", vec![0, 0, 8], &[2, 2]),
        case("no atoms, count 9 alone", vec![0, 0, 9], &[2, 2]),
        case("no atoms, count 255 alone", vec![0, 0, 255], &[2, 2]),
        case("no atoms, a pair", of(0, [0, 1]), &[15, 3]),
        case("no atoms, a pair of 0 and 0", of(0, [0, 0]), &[15, 3]),
        case("one atom, twice", of(1, [0, 0]), &[15, 5]),
        case("one atom, a second", of(1, [0, 1]), &[15, 5]),
        case("one atom, a first", of(1, [1, 0]), &[15, 5]),
        case("two atoms", of(2, [0, 1]), &[0, 2, 0, 0]),
        case("two atoms, the second first", of(2, [1, 0]), &[0, 2, 0, 0]),
        case("two atoms, a third second", of(2, [1, 2]), &[15, 7]),
        case("two atoms, a third first", of(2, [2, 0]), &[15, 7]),
    ]
}

/// Up to seven pairs: of seven atoms at 17, 19 and 21, of 13 from 29 to 41, of 14 from 31 to 43, of 15 from 33 to 45.
fn many_atoms() -> Vec<Case> {
    let of = |atoms, first: &[Pair], last: Pair| lettered_with(atoms, &[], &[first, &[last]].concat());
    let (two, six) = (&SEVEN[..2], &SEVEN[..6]);
    let apart: Vec<Pair> = (0..7).map(|atom| [14 - atom, atom]).collect();
    vec![
        case("three pairs", of(7, two, [6, 4]), &[0, 7, 0, 0]),
        case("three pairs, the first's first again", of(7, two, [0, 4]), &[15, 21]),
        case("three pairs, the first's second again", of(7, two, [4, 1]), &[15, 21]),
        case("three pairs, the second's first again", of(7, two, [2, 4]), &[15, 21]),
        case("three pairs, the second's second again", of(7, two, [4, 3]), &[15, 21]),
        case("three pairs, the last two bad", of(7, &[[0, 1], [1, 3]], [5, 5]), &[15, 19]),
        case("seven pairs of 14 atoms", lettered_with(14, &[], &SEVEN), &[0, 14, 0, 0]),
        case("seven pairs of 13 atoms", lettered_with(13, &[], &SEVEN), &[15, 41]),
        case("seven pairs of 15 atoms", lettered_with(15, &[], &SEVEN), &[0, 15, 0, 0]),
        case("seven pairs of atoms far apart", lettered_with(15, &[], &apart), &[0, 15, 0, 0]),
        case("seven pairs, the last with atom 14", of(15, six, [14, 12]), &[0, 15, 0, 0]),
        case("seven pairs, the last with atom 15", of(15, six, [14, 15]), &[15, 45]),
        case("seven pairs, the last of one atom", of(15, six, [14, 14]), &[15, 45]),
        case("seven pairs, the first's first again", of(15, six, [0, 14]), &[15, 45]),
        case("seven pairs, the sixth's second again", of(15, six, [14, 11]), &[15, 45]),
        case("eight pairs", of(15, &SEVEN, [14, 0]), &[2, 32]),
        case("seven pairs and one more", add(&lettered_with(15, &[], &SEVEN), &[14, 0]), &[6, 47]),
        case("seven pairs, 64 rules", lettered_with(15, &[[0; 8]; 64], &SEVEN), &[0, 15, 64, 0]),
        case("seven pairs, 65 rules", lettered_with(15, &[[0; 8]; 65], &SEVEN), &[2, 31]),
    ]
}

/// The longest sheet with another byte: the pair count at 1221, pairs at 1222, .., 1234.
fn of_longest() -> Vec<Case> {
    let rows: [(usize, u8, [u32; 2]); 12] = [
        (1221, 8, [2, 1221]),
        (1221, 255, [2, 1221]),
        (1221, 6, [6, 1234]),
        (1221, 0, [6, 1222]),
        (1222, 15, [15, 1222]),
        (1222, 1, [15, 1222]),
        (1223, 15, [15, 1222]),
        (1224, 0, [15, 1224]),
        (1234, 15, [15, 1234]),
        (1234, 13, [15, 1234]),
        (1235, 0, [15, 1234]),
        (1235, 255, [15, 1234]),
    ];
    let title = |place, byte| format!("longest sheet, byte {byte} at {place}");
    let changed = rows.iter().map(|&(place, byte, answer)| (place, byte, put(&longest(), place, byte), answer));
    let mut cases: Vec<Case> =
        changed.map(|(place, byte, sheet, answer)| case(title(place, byte), sheet, &answer)).collect();
    cases.push(case("longest sheet, its last atom 14", put(&longest(), 1235, 14), &[0, 15, 64, 12]));
    cases.push(case("longest sheet, bad pair and a byte", add(&put(&longest(), 1235, 0), &[0]), &[15, 1234]));
    cases
}

/// 13 negations, the pair count at 44: 7 comes after 1, 2, 15 and 6. And a bad rule before a bad pair.
fn beside_others() -> Vec<Case> {
    let thirteen = |pairs: &[Pair]| lettered_with(13, &[rule(&[(K, 8_191)])], pairs);
    let good = thirteen(&[[0, 1]]);
    vec![
        case("13 negations and a pair", good.clone(), &[7, 0]),
        case("13 negations, no pair count", good[..44].to_vec(), &[1, 44]),
        case("13 negations, pair missing", good[..45].to_vec(), &[1, 45]),
        case("13 negations, pair cut off", good[..46].to_vec(), &[1, 46]),
        case("13 negations, count 8", put(&good, 44, 8), &[2, 44]),
        case("13 negations, atom 13 in a pair", thirteen(&[[0, 13]]), &[15, 45]),
        case("13 negations, an atom in two pairs", thirteen(&[[0, 1], [2, 1]]), &[15, 47]),
        case("13 negations, a pair and a byte", add(&good, &[0]), &[6, 47]),
        case("12 negations and a pair", lettered_with(12, &[rule(&[(K, 4_095)])], &[[0, 11]]), &[0, 12, 1, 12]),
        case("bad bit and bad pair", lettered_with(1, &[rule(&[(NOT_M, 2)])], &[[1, 1]]), &[5, 18]),
    ]
}
