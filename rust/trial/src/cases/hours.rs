//! Calendars of a random generator with a fixed seed, beside known, small and large sheets; the second solver gives the
//! answers.

use super::guesses::in_turn;
use super::sheets::{longest, twos};
use super::{small, Case};
use crate::calendars::{edges, random_entries};
use crate::damage::damaged_calendar;
use crate::known;
use crate::random::{Random, SEED};
use crate::request::{CHANGES, LIST_AT};
use crate::solver::calls::{open, Opened};
use crate::write::{calendar, Entry};

pub fn cases() -> Vec<Case> {
    let mut random = Random::new(SEED, 50);
    let parts = [known_sheets, small_sheets, damaged, large_sheets];
    parts.into_iter().flat_map(|part| part(&mut random)).collect()
}

/// A sheet and a calendar.
struct Timed {
    title: String,
    sheet: Vec<u8>,
    opened: Opened,
    calendar: Vec<u8>,
}

impl Timed {
    fn new(title: &str, sheet: &[u8], calendar: Vec<u8>) -> Timed {
        let opened = open(sheet).expect("an accepted sheet");
        Timed { title: format!("{title}, a calendar"), sheet: sheet.to_vec(), opened, calendar }
    }

    /// The list at a minute, in a buffer with so many cells more than the records fill.
    fn list_at(&self, minute: u16, more: usize) -> Case {
        let listing = self.opened.listing_at(&self.calendar, minute.into());
        let filled = listing.map_or(0, |listing| 4 * listing.views.len());
        Case::new(&self.title, LIST_AT, &self.sheet, minute.into(), filled + more).beside(&self.calendar)
    }

    /// The minutes of change, in a buffer that they fill, or which is one cell short where there are any.
    fn changes(&self, short: bool) -> Case {
        let filled = self.opened.calendar(&self.calendar).map_or(2, |calendar| calendar.changes().len());
        let cells = if short { filled.saturating_sub(1) } else { filled };
        Case::new(&self.title, CHANGES, &self.sheet, 0, cells).beside(&self.calendar)
    }

    /// One of the two calls; the calendar has these entries, or had them.
    fn either(&self, random: &mut Random, entries: &[Entry]) -> Case {
        let minute = random.pick(&edges(entries));
        if random.chance(60) {
            self.list_at(minute, random.below(2))
        } else {
            self.changes(false)
        }
    }
}

fn rules(sheet: &[u8]) -> usize {
    open(sheet).expect("an accepted sheet").check()[1]
}

/// Each known sheet at the minutes on both sides of each first and end.
fn known_sheets(random: &mut Random) -> Vec<Case> {
    let mut cases = Vec::new();
    for known in known::all() {
        let count = random.between(1, 4);
        let entries = random_entries(random, rules(&known.sheet), count);
        let timed = Timed::new(known.title, &known.sheet, calendar(&entries));
        cases.extend(edges(&entries).into_iter().map(|minute| timed.list_at(minute, 0)));
        cases.extend([timed.changes(false), timed.changes(true)]);
    }
    cases
}

/// Each small sheet, at one of those minutes or over the week.
fn small_sheets(random: &mut Random) -> Vec<Case> {
    let mut cases = Vec::new();
    for (title, sheet) in small::sheets() {
        let count = random.between(1, 6);
        let entries = random_entries(random, rules(&sheet), count);
        let timed = Timed::new(&title, &sheet, calendar(&entries));
        cases.push(timed.either(random, &entries));
    }
    cases
}

/// The same beside damaged calendars, some of which are still accepted.
fn damaged(random: &mut Random) -> Vec<Case> {
    let mut cases = Vec::new();
    for (title, sheet) in small::sheets() {
        let count = random.below(4);
        let entries = random_entries(random, rules(&sheet), count);
        let timed = Timed::new(&title, &sheet, damaged_calendar(random, &entries, rules(&sheet)));
        cases.push(timed.either(random, &entries));
    }
    cases
}

/// Many rules or negations, and 64 entries.
fn large_sheets(random: &mut Random) -> Vec<Case> {
    let sheets = [("64 rules in turn", in_turn()), ("the longest sheet", longest()), ("12 not K of 12 atoms", twos())];
    let mut cases = Vec::new();
    for (title, sheet) in sheets {
        let entries = random_entries(random, rules(&sheet), 64);
        let timed = Timed::new(title, &sheet, calendar(&entries));
        cases.extend((0..4).map(|more| timed.list_at(random.pick(&edges(&entries)), more)));
        cases.extend([timed.changes(false), timed.changes(true)]);
    }
    cases
}
