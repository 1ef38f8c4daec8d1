//! Cases of sheets on one allowance, with answers by hand from document 02.

use super::rows::{self, rows, word};
use super::sheets::{add, bad, each, letters, longest, over, twos};
use super::{spaced, Case};
use crate::known::{kiln, titled};
use crate::request::{Request, MOST_CELLS, SHARE};
use crate::sharing::Sharing;
use crate::write::*;

/// A request a line, with the line that is owed.
const ANSWERED: &str = include_str!("../../cases/sharing.txt");

/// What the first cell of each buffer holds: a number that is in no answer but those of large sheets.
pub const FIRST: u16 = 500;

pub fn cases() -> Vec<Case> {
    let parts = [told, each_position, each_refusal, two_refused, twelve_negations, many_tests, limits, passed_over];
    rows(ANSWERED).map(answered).chain(parts.into_iter().flat_map(|part| part())).collect()
}

/// A request without an answer by hand.
pub fn shared(title: &str, sharing: &Sharing, allowance: u32) -> Case {
    let companion = sharing.bytes();
    let request = Request { call: SHARE, argument: allowance, companion, first: FIRST, ..Request::default() };
    Case { title: format!("{title}, told {}", sharing.told), request, by_hand: None }
}

fn answered(row: &str) -> Case {
    let (request, line) = row.split_once(" = ").expect(row);
    let (sheets, numbers) = request.split_once(" / ").expect(row);
    let lent = |field: &str| -> (Vec<u8>, u16) {
        let (sheet, cells) = field.strip_suffix(']').and_then(|field| field.split_once(" [")).expect(row);
        (rows::sheet(sheet), cells.parse().expect(row))
    };
    let (sheets, cells): (Vec<Vec<u8>>, Vec<u16>) = sheets.split(" + ").map(lent).unzip();
    let [allowance, first] = rows::numbers(numbers).unwrap_or_else(|| panic!("{row}"));
    let mut case = shared(&format!("by hand, {line}"), &Sharing::of(&sheets, &cells), allowance);
    case.request.first = word(first);
    Case { by_hand: Some(line.to_string()), ..case }
}

/// A call that is refused so: number, place and position.
fn refused(title: &str, sharing: &Sharing, allowance: u32, numbers: [u32; 3]) -> Case {
    shared(title, sharing, allowance).owing(&format!("{} : ..", spaced(&numbers)))
}

/// Sheet 6: two tests, each a world view.
fn six() -> Vec<u8> {
    titled("6:").sheet
}

/// 14 for no sheet and for more than four, whatever they are: four of them are there.
fn told() -> Vec<Case> {
    let mut cases =
        [0, u32::MAX].map(|allowance| refused("no sheet", &Sharing::of(&[], &[]), allowance, [14, 0, 0])).to_vec();
    for (told, allowance) in [(5, 0), (5, 9), (6, 1), (8, 2), (128, 9), (252, 9), (254, 9), (255, u32::MAX)] {
        let sharing = |sheets: [Vec<u8>; 4], cells| Sharing { told, ..Sharing::of(&sheets, cells) };
        let good = sharing([(); 4].map(|()| six()), &[8, 8, 8, 8]);
        let bad = sharing([vec![], vec![16], six(), add(&six(), &[0])], &[1, 0, 1, 0]);
        cases.push(refused("more than four sheets", &good, allowance, [14, 0, 0]));
        cases.push(refused("more than four sheets, some bad", &bad, allowance, [14, 0, 0]));
    }
    cases
}

/// So many sheets, each sheet 6 with no cells: once it has had a test, its views don't fit.
fn without_cells(count: usize) -> Sharing {
    Sharing::of(&vec![six(); count], &vec![0; count])
}

/// A bad sheet at each position of one to four; 9 comes after it.
fn each_position() -> Vec<Case> {
    let thirteen = lettered(13, &[rule(&[(K, 8_191)])]);
    let bad = [(vec![], [1, 0]), (add(&six(), &[0]), [6, six().len() as u32]), (thirteen, [7, 0])];
    let mut cases = Vec::new();
    for count in 1..=4 {
        cases.push(refused("views that don't fit", &without_cells(count), 16, [9, 2, 0]));
        for position in 0..count {
            for (sheet, [number, place]) in &bad {
                let mut sharing = without_cells(count);
                sharing.sheets[position] = sheet.clone();
                cases.push(refused("a bad sheet", &sharing, 16, [*number, *place, position as u32]));
            }
        }
    }
    cases
}

/// Each refusal of a sheet, with its place in that sheet, at some position.
fn each_refusal() -> Vec<Case> {
    let mut cases = Vec::new();
    for (turn, ([number, place], sheet)) in bad().into_iter().enumerate() {
        let (position, allowance) = (turn % 4, [0, 1, 3, u32::MAX][turn / 4 % 4]);
        let mut sharing = Sharing::of(&[kiln(), six(), kiln(), six()], &[4, 3, 0, 9]);
        sharing.sheets[position] = sheet;
        cases.push(refused("a bad sheet of four", &sharing, allowance, [number, place, position as u32]));
    }
    cases
}

/// Two bad sheets: the first is named, whatever is wrong with it.
fn two_refused() -> Vec<Case> {
    let bad = bad();
    let positions = (0..4).flat_map(|first| (first + 1..4).map(move |second| [first, second]));
    let mut cases = Vec::new();
    for (turn, [first, second]) in positions.enumerate() {
        for (one, other) in [(turn, 18 - turn), (18 - turn, turn)] {
            let mut sharing = without_cells(4);
            sharing.sheets[first] = bad[one].1.clone();
            sharing.sheets[second] = bad[other].1.clone();
            let [number, place] = bad[one].0;
            cases.push(refused("two bad sheets", &sharing, 9, [number, place, first as u32]));
        }
    }
    cases
}

/// One sheet, with so many cells, an allowance, and what follows the call in its line.
fn alone(title: &str, sheet: &[u8], cells: u16, allowance: u32, by_hand: &str) -> Case {
    shared(title, &Sharing::of(&[sheet.to_vec()], &[cells]), allowance).owing(by_hand)
}

/// The first views of six twos: their guesses have one negation of each two, and know the other atoms.
fn first_views(count: usize) -> String {
    let view = |guess: u16| [guess, 4095 - guess, 4095 - guess, 1];
    spaced(&[1365, 1366, 1369, 1370, 1381].map(view)[..count].concat())
}

/// 4,096 guesses: each ruled; one tested and the others covered; 64 tested, each a view.
fn twelve_negations() -> Vec<Case> {
    let twelve = letters(12);
    let ruled = over(twelve, &("<-;".to_string() + &each(twelve, "x <- K x")));
    let covered = over(twelve, &each(twelve, "x <- K x"));
    let four = Sharing::of(&[twos(), ruled.clone(), twos(), covered.clone()], &[8, 0, 8, 4]);
    let of_four = format!("0 5 0 2 2 1 0 0 0 2 2 1 1 1 : {} {} 4095 0 0 1", first_views(2), first_views(2));
    vec![
        alone("4,096 guesses ruled", &ruled, 1, 0, "0 0 1 0 0 : 500"),
        alone("4,096 guesses ruled", &ruled, 1, 1, "0 0 1 0 0 : 500"),
        alone("4,095 guesses covered", &covered, 4, 0, "0 0 0 0 0 : .."),
        alone("4,095 guesses covered", &covered, 4, 1, "0 1 1 1 1 : 4095 0 0 1"),
        alone("64 views", &twos(), 3, 0, "0 0 0 0 0 : .."),
        alone("64 views", &twos(), 20, 5, &format!("0 5 0 5 5 : {}", first_views(5))),
        alone("64 views", &twos(), 19, 5, "9 5 0 : .."),
        alone("64 views", &twos(), 3, 63, "9 63 0 : .."),
        alone("64 views", &twos(), 3, 64, "9 64 0 : .."),
        shared("12 negations, four sheets", &four, 5).owing(&of_four),
        shared("12 negations, four sheets", &Sharing { cells: vec![8, 0, 8, 3], ..four.clone() }, 3)
            .owing("9 1 3 : .."),
        shared("12 negations, four sheets", &Sharing { cells: vec![8, 0, 3, 3], ..four.clone() }, 5)
            .owing("9 2 2 : .."),
        shared("12 negations, four sheets", &Sharing { cells: vec![8, 0, 3, 3], ..four }, 1_000).owing("9 64 0 : .."),
    ]
}

/// Atoms in a ring, which are neither in T nor in F: every guess over M of so many is tested, and guess 0, the last, is
/// the view.
pub fn ring(atoms: usize) -> Vec<u8> {
    let next = |atom: usize| 1 << ((atom + 1) % atoms);
    let mut rules: Vec<_> = (0..atoms).map(|atom| rule(&[(HEAD, 1 << atom), (PLAIN, next(atom))])).collect();
    rules.push(names_negations(0, ((1u32 << atoms) - 1) as u16));
    lettered(atoms, &rules)
}

/// Sheets of 4,096 tests and of 8, of which the last is a view.
fn many_tests() -> Vec<Case> {
    let (long, short) = (ring(12), ring(3));
    let two = |allowance, by_hand: &str| {
        shared("4,096 tests and 8", &Sharing::of(&[long.clone(), short.clone()], &[4, 4]), allowance).owing(by_hand)
    };
    let (none, one) = ("500 501 502 503", "0 0 0 1");
    vec![
        alone("4,096 tests", &long, 4, 4_095, &format!("0 4095 0 4095 0 : {none}")),
        alone("4,096 tests", &long, 4, 4_096, &format!("0 4096 1 4096 1 : {one}")),
        alone("4,096 tests", &long, 3, 4_095, "0 4095 0 4095 0 : 500 501 502"),
        alone("4,096 tests", &long, 3, 4_096, "9 1 0 : .."),
        two(15, &format!("0 15 0 8 0 0 7 0 : {none} {none}")),
        two(16, &format!("0 16 0 8 0 1 8 1 : {none} {one}")),
        two(17, &format!("0 17 0 9 0 1 8 1 : {none} {one}")),
        two(4_103, &format!("0 4103 0 4095 0 1 8 1 : {none} {one}")),
        two(4_104, &format!("0 4104 1 4096 1 1 8 1 : {one} {one}")),
        two(65_536, &format!("0 4104 1 4096 1 1 8 1 : {one} {one}")),
    ]
}

/// The longest sheet, whose one view is "not K" of six atoms; the longest bytes of a request.
fn limits() -> Vec<Case> {
    let four = Sharing::of(&[(); 4].map(|()| longest()), &[4, 0, 5, 3]);
    let zeros = Sharing::of(&[kiln(), vec![0; 2_048]], &[4, 1]);
    vec![
        shared("the longest sheet", &four, 1)
            .owing("0 1 1 1 1 0 0 0 0 0 0 0 0 0 : 1365 0 0 1 500 501 502 503 504 500 501 502"),
        shared("the longest sheet", &four, 2).owing("9 1 1 : .."),
        shared("the longest sheet", &Sharing { cells: vec![4, 4, 5, 3], ..four }, 4).owing("9 1 3 : .."),
        refused("2,048 bytes", &zeros, 2, [6, 3, 1]),
    ]
}

/// What the call passes over: the request's own sheet, day masks and cells. The sheets take no masks.
fn passed_over() -> Vec<Case> {
    let sharing = Sharing::of(&[six(), kiln()], &[8, 4]);
    let case = shared("passed over", &sharing, 2).owing("0 2 0 1 1 1 1 1 : 1 2 2 1 504 505 506 507 0 1 1 1");
    let own = [(kiln(), [0, 0], 0), (vec![], [1, 0], 1), (vec![255; 9], [0, 3], 40), (six(), [65_535, 1], MOST_CELLS)];
    let with = |(sheet, masks, cells)| {
        let mut case = case.clone();
        case.request = Request { sheet, masks, cells, ..case.request };
        case
    };
    own.into_iter().map(with).collect()
}
