//! Cases of the calls that take day masks, the verdict, the belief sets, the list and the query, with answers by hand
//! from document 02.

use super::listed::listed;
use super::rows::{self, rows, word};
use super::sheets::{bad, each, free, letters, longest, over, twos};
use super::{queries, Case};
use crate::known::kiln;
use crate::request::{BELIEF_SETS, LIST, QUERY, VERDICT};
use crate::write::*;

/// A sheet and masks a line, with all that the four calls owe.
const ANSWERED: &str = include_str!("../../cases/masks.txt");

/// All of 15 atoms; those of even number, and those of odd number.
const ALL: u16 = 0x7FFF;
const EVEN: u16 = 0x5555;
const ODD: u16 = 0x2AAA;

pub fn cases() -> Vec<Case> {
    let parts = [turned_away, before_others, sheet_first, last_accepted, sixty_four_rules, longest_sheet, six_twos];
    rows(ANSWERED).flat_map(answered).chain(parts.into_iter().flat_map(|part| part())).collect()
}

/// A sheet under day masks.
pub struct Day {
    title: String,
    sheet: Vec<u8>,
    masks: [u16; 2],
}

/// An accepted line without its call: the values, and the cells that are written.
fn accepted(values: &str, written: &str) -> String {
    match written {
        "" => format!("0 {values} : .."),
        _ => format!("0 {values} : {written} .."),
    }
}

impl Day {
    pub fn new(title: &str, sheet: &[u8], masks: [u16; 2]) -> Day {
        Day { title: title.to_string(), sheet: sheet.to_vec(), masks }
    }

    /// A call, with what follows it in its line by hand.
    pub fn owing(&self, call: u8, argument: u32, cells: usize, by_hand: &str) -> Case {
        Case::new(&self.title, call, &self.sheet, argument, cells).under(self.masks).owing(by_hand)
    }

    /// A call that writes, with one cell more than it needs, and with one less.
    fn writing(&self, call: u8, argument: u32, by_hand: &str, needed: usize, count: usize) -> Vec<Case> {
        let mut cases = vec![self.owing(call, argument, needed + 1, by_hand)];
        if needed > 0 {
            cases.push(self.owing(call, argument, needed - 1, &format!("9 {count} : ..")));
        }
        cases
    }

    /// The values of the verdict on a guess, and its belief sets.
    pub fn guess(&self, guess: u32, sets: &str, verdict: &str) -> Vec<Case> {
        let count = sets.split_whitespace().count();
        let mut cases = self.writing(BELIEF_SETS, guess, &accepted(&count.to_string(), sets), count, count);
        cases.push(self.owing(VERDICT, guess, 1, &accepted(verdict, "")));
        cases
    }

    /// The six counts and the records.
    pub fn list(&self, counts: &str, records: &str) -> Vec<Case> {
        let needed = records.split_whitespace().count();
        self.writing(LIST, 0, &accepted(counts, records), needed, needed / 4)
    }

    /// What is said of an atom.
    fn query(&self, atom: usize, answer: Option<&str>) -> Case {
        self.owing(QUERY, atom as u32, 1, &queries::owed(answer))
    }

    /// All four calls, refused so; guess and atom are the argument.
    fn refused(&self, argument: u32, cells: usize, [number, place]: [u32; 2]) -> Vec<Case> {
        let by_hand = format!("{number} {place} : ..");
        [VERDICT, BELIEF_SETS, LIST, QUERY].map(|call| self.owing(call, argument, cells, &by_hand)).to_vec()
    }
}

/// Every guess and the first one that is out of range, the list, every atom and the first one out of range.
pub fn answered(row: &str) -> Vec<Case> {
    let fields: Vec<&str> = row.split('/').map(str::trim).collect();
    let [sheet, masks, guesses, listing, answers] = fields[..] else { panic!("{row}") };
    let masks = rows::numbers(masks).unwrap_or_else(|| panic!("{row}")).map(word);
    let day = Day::new(sheet, &rows::sheet(sheet), masks);
    let judged: Vec<(&str, &str)> = guesses.split(',').map(|guess| guess.split_once("= ").expect(row)).collect();
    let (counts, records) = listing.split_once(" :").expect(row);
    let answers: Vec<&str> = answers.split_whitespace().collect();
    let mut cases = day.list(counts, records.trim());
    for (guess, (sets, verdict)) in (0..).zip(&judged) {
        cases.extend(day.guess(guess, sets.trim(), verdict));
    }
    let out_of_range = judged.len() as u32;
    cases.extend([VERDICT, BELIEF_SETS].map(|call| day.owing(call, out_of_range, 0, "8 0 :")));
    cases.extend((0..=answers.len()).map(|atom| day.query(atom, answers.get(atom).copied())));
    cases
}

/// Masks that are turned away (refusal 13) over so many atoms: a bit at the number of atoms or above it, in either mask
/// or in both; one atom in both, some, all.
const TURNED_AWAY: [(usize, &[[u16; 2]]); 5] = [
    (0, &[[1, 0], [0, 1], [1, 1], [2, 0], [0, 256], [32_768, 0], [0, 32_768], [65_535, 65_535]]),
    (1, &[[2, 0], [0, 2], [3, 0], [0, 3], [2, 1], [1, 2], [1, 1], [128, 0], [0, 16_384], [32_768, 1]]),
    (2, &[[4, 0], [0, 4], [8, 0], [0, 8], [5, 2], [2, 5], [256, 0], [0, 512], [1, 1], [2, 2], [3, 3], [3, 1], [2, 3]]),
    (8, &[[256, 0], [0, 256], [511, 0], [0, 511], [128, 128], [255, 255], [255, 16], [32_768, 0], [0, 32_768]]),
    (
        15,
        &[
            [32_768, 0],
            [0, 32_768],
            [65_535, 0],
            [0, 65_535],
            [1, 1],
            [16_384, 16_384],
            [ALL, 128],
            [256, ALL],
            [ALL, ALL],
            [EVEN, ODD + 1],
            [32_768, 32_768],
        ],
    ),
];

fn turned_away() -> Vec<Case> {
    let mut cases = Vec::new();
    for (atoms, rows) in TURNED_AWAY {
        for &masks in rows {
            cases.extend(Day::new(&format!("{atoms} choices"), &free(atoms), masks).refused(0, 2, [13, 0]));
        }
    }
    cases
}

/// 13 comes before 8, 10 and 9.
fn before_others() -> Vec<Case> {
    let mut cases = Vec::new();
    for masks in [[4, 0], [0, 32_768], [1, 1]] {
        let day = Day::new("13 before 8, 10 and 9", &kiln(), masks);
        cases.extend(day.refused(0, 0, [13, 0]));
        for argument in [2, 65_536, u32::MAX] {
            cases.extend([day.refused(argument, 3, [13, 0]), day.refused(argument, 0, [13, 0])].concat());
        }
    }
    cases
}

/// 1 to 7 and 15 come before 13.
fn sheet_first() -> Vec<Case> {
    let turned_away = [[65_535, 0], [0, 32_768], [1, 1], [65_535, 65_535]];
    let sheets = bad().into_iter().zip(turned_away.iter().cycle());
    let refused = |((numbers, sheet), &masks): (([u32; 2], Vec<u8>), &[u16; 2])| {
        Day::new("bad sheet and bad masks", &sheet, masks).refused(0, 2, numbers)
    };
    sheets.flat_map(refused).collect()
}

/// A sheet without negations, the masks, and the belief sets and the verdict of guess 0, which is verified.
type Row<'a> = (&'a str, &'a [u8], [u16; 2], &'a str, &'a str);

/// The verdict and the belief sets, and the list: one view.
fn verified((title, sheet, masks, sets, numbers): Row) -> Vec<Case> {
    let day = Day::new(title, sheet, masks);
    [day.guess(0, sets, &format!("2 {numbers}")), day.list("1 0 0 1 0 0", &format!("0 {numbers}"))].concat()
}

/// Every atom in or out, up to the last one.
fn last_accepted() -> Vec<Case> {
    let facts = |atoms| over(letters(atoms), &each(letters(atoms), "x"));
    let rows: [Row; 8] = [
        ("8 facts", &facts(8), [255, 0], "255", "255 255 1"),
        ("8 choices", &free(8), [128, 127], "128", "128 128 1"),
        ("15 facts", &facts(15), [ALL, 0], "32767", "32767 32767 1"),
        ("15 facts", &facts(15), [16_384, 0], "32767", "32767 32767 1"),
        ("15 atoms, no rules", &lettered(15, &[]), [0, ALL], "0", "0 0 1"),
        ("15 choices", &free(15), [EVEN, ODD], "21845", "21845 21845 1"),
        ("15 choices", &free(15), [ODD, EVEN], "10922", "10922 10922 1"),
        ("15 choices", &free(15), [EVEN, ODD - 2 - 8], "21845 21847 21853 21855", "21845 21855 4"),
    ];
    rows.into_iter().flat_map(verified).collect()
}

/// 64 rules and up to 15 constraints: every set with b or without a is stable, "b ← a" being the last rule.
fn sixty_four_rules() -> Vec<Case> {
    let always = rule(&[(HEAD, 1), (PLAIN, 1)]);
    let rules = [choices(0..15), vec![always; 48], vec![rule(&[(HEAD, 2), (PLAIN, 1)])]].concat();
    let (title, sheet) = ("64 rules", lettered(15, &rules));
    let rows: [Row; 4] = [
        (title, &sheet, [ALL, 0], "32767", "32767 32767 1"),
        (title, &sheet, [0, ALL], "0", "0 0 1"),
        (title, &sheet, [ODD, EVEN], "10922", "10922 10922 1"),
        (title, &sheet, [1, ALL - 3], "3", "3 3 1"),
    ];
    let mut cases: Vec<Case> = rows.into_iter().flat_map(verified).collect();
    let none = Day::new(title, &sheet, [EVEN, ODD]);
    cases.extend([none.guess(0, "", "0"), none.list("0 0 0 1 1 0", "")].concat());
    cases.extend((0..16).map(|atom| none.query(atom, (atom < 15).then_some("none"))));
    // a and so b in, the last atom out, twelve atoms free.
    let free = Day::new(title, &sheet, [1, 16_384]);
    cases.push(free.owing(VERDICT, 0, 0, "0 2 3 16383 4096 :"));
    cases.push(free.owing(BELIEF_SETS, 0, 3, "9 4096 : .."));
    cases.extend(free.list("1 0 0 1 0 0", "0 3 16383 4096"));
    cases
        .extend([(0, "yes"), (1, "yes"), (2, "open"), (14, "no")].map(|(atom, answer)| free.query(atom, Some(answer))));
    cases
}

/// Twelve negations, 64 rules. A guess but 0 deletes every rule, so that all atoms are in F; guess 0 none, and F is empty.
fn longest_sheet() -> Vec<Case> {
    let (title, sheet) = ("longest sheet", longest());
    let in_first = listed(title, sheet.clone()).under([1, 0]).counted([0, 0, 4095, 1, 1, 0]).views(&[]);
    let all_out = listed(title, sheet.clone()).under([0, ALL]).counted([1, 63, 4032, 1, 0, 0]);
    let [in_day, out_day] = [[1, 0], [0, ALL]].map(|masks| Day::new(title, &sheet, masks));
    [
        in_first.cells(&[0, 3]),
        all_out.views(&[[1365, 0, 0, 1]]).edges(),
        in_day.guess(0, "", "0"),
        in_day.guess(1365, "", "0"),
        out_day.guess(1365, "0", "2 0 0 1"),
        vec![in_day.query(0, Some("none")), out_day.query(14, Some("no"))],
    ]
    .concat()
}

/// Six twos, of each one atom is known. With the first of a two in, of its guesses 2 is verified, 0 covered, and 1 and
/// 3 are ruled; out, 1 in place of 2. With both in or both out, 0 has no set, and the others are ruled.
fn six_twos() -> Vec<Case> {
    let list = |masks, counts| listed("six twos", twos()).under(masks).counted(counts);
    let one = [1, 63, 4032, 1, 0, 0];
    let first_in = [32, 2 * 243 - 32, 4096 - 2 * 243, 32, 0, 0];
    let neither = [0, 0, 4096 - 243, 243, 243, 0];
    let day = Day::new("six twos", &twos(), [1, 0]);
    [
        list([1365, 0], one).views(&[[2730, 1365, 1365, 1]]).edges(),
        list([0, 1365], one).views(&[[1365, 2730, 2730, 1]]).edges(),
        list([1, 0], first_in).edges(),
        list([3, 0], neither).cells(&[0, 5]),
        list([0, 3], neither).cells(&[0, 5]),
        [(0, "yes"), (1, "no"), (2, "open"), (11, "open")].map(|(atom, answer)| day.query(atom, Some(answer))).to_vec(),
    ]
    .concat()
}
