//! Day masks over known, small and large sheets; the second solver gives the answers.

use super::guesses::in_turn;
use super::sheets::{longest, twelve_m, twos, SIX};
use super::{small, Case};
use crate::known;
use crate::masks::{faulty_masks, random_masks, FAULTS};
use crate::random::{Random, SEED};
use crate::request::{BELIEF_SETS, LIST, QUERY, VERDICT};
use crate::solver::calls::{open, open_under, Opened};
use crate::text::good;

pub fn cases() -> Vec<Case> {
    let mut random = Random::new(SEED, 60);
    let parts = [small_sheets, faults, large_sheets];
    known_sheets().into_iter().chain(parts.into_iter().flat_map(|part| part(&mut random))).collect()
}

/// A sheet under masks.
struct Day<'a> {
    title: &'a str,
    sheet: &'a [u8],
    masks: [u16; 2],
    opened: Opened,
}

impl Day<'_> {
    fn new<'a>(title: &'a str, sheet: &'a [u8], masks: [u16; 2]) -> Day<'a> {
        Day { title, sheet, masks, opened: open_under(sheet, masks).expect("accepted masks") }
    }

    fn case(&self, call: u8, argument: usize, cells: usize) -> Case {
        Case::new(self.title, call, self.sheet, argument as u32, cells).under(self.masks)
    }

    /// Both calls on a guess, with so many cells more than sets.
    fn guess(&self, guess: usize, more: usize) -> [Case; 2] {
        let sets = self.opened.sets_of(guess as u16).len();
        [self.case(VERDICT, guess, 0), self.case(BELIEF_SETS, guess, sets + more)]
    }

    /// The list, with so many cells more than the records fill.
    fn list(&self, more: usize) -> Case {
        self.case(LIST, 0, 4 * self.opened.listing().views.len() + more)
    }
}

/// All masks over so many atoms that are accepted.
fn all_masks(atoms: usize) -> impl Iterator<Item = [u16; 2]> {
    let pairs = (0u16..1 << atoms).flat_map(move |a| (0..1 << atoms).map(move |b| [a, b]));
    pairs.filter(|[in_atoms, out_atoms]| in_atoms & out_atoms == 0)
}

/// The known sheets of at most two atoms under all masks: every guess, the list, every atom.
fn known_sheets() -> Vec<Case> {
    let mut cases = Vec::new();
    for known in known::all().iter().filter(|known| known.sheet[0] <= 2) {
        let [atoms, _, negations] = open(&known.sheet).expect("an accepted sheet").check();
        for masks in all_masks(atoms) {
            let day = Day::new(known.title, &known.sheet, masks);
            cases.extend((0..1 << negations).flat_map(|guess| day.guess(guess, 0)));
            cases.push(day.list(0));
            cases.extend((0..atoms).map(|atom| day.case(QUERY, atom, 0)));
        }
    }
    cases
}

/// Each small sheet under random masks: a guess, the list and an atom, twice.
fn small_sheets(random: &mut Random) -> Vec<Case> {
    let mut cases = Vec::new();
    for (title, sheet) in small::sheets().iter().flat_map(|sheet| [sheet, sheet]) {
        let [atoms, _, negations] = open(sheet).expect("an accepted sheet").check();
        let day = Day::new(title, sheet, random_masks(random, atoms));
        cases.extend(day.guess(random.below(1 << negations), random.below(2)));
        cases.extend([day.list(random.below(2)), day.case(QUERY, random.below(atoms.max(1)), 0)]);
    }
    cases
}

/// Small sheets under masks with one thing wrong.
fn faults(random: &mut Random) -> Vec<Case> {
    let sheets = small::sheets().into_iter().filter(|(_, sheet)| (1..15).contains(&sheet[0]));
    let calls = [VERDICT, BELIEF_SETS, LIST, QUERY].into_iter().cycle();
    let turns = sheets.zip(calls).zip(FAULTS.into_iter().cycle());
    let case = |(((title, sheet), call), fault): (((String, Vec<u8>), u8), _)| {
        let masks = faulty_masks(random, sheet[0].into(), fault);
        Case::new(&title, call, &sheet, 0, 1).under(masks).owing("13 0 : ..")
    };
    turns.map(case).collect()
}

/// Many rules or negations: the list, a guess and an atom.
fn large_sheets(random: &mut Random) -> Vec<Case> {
    let sheets = [
        ("64 rules in turn", in_turn()),
        ("the longest sheet", longest()),
        ("12 not K of 12 atoms", twos()),
        ("12 M of 12 atoms", twelve_m()),
        ("12 negations of 6 atoms", good(SIX)),
    ];
    let mut cases = Vec::new();
    for (title, sheet) in &sheets {
        let [atoms, _, negations] = open(sheet).expect("an accepted sheet").check();
        for _ in 0..3 {
            let day = Day::new(title, sheet, random_masks(random, atoms));
            cases.push(day.list(random.below(3)));
            cases.extend(day.guess(random.below(1 << negations), 1));
            cases.push(day.case(QUERY, random.below(atoms), 1));
        }
    }
    cases
}
