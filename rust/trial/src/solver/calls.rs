//! The calls on one sheet, of document 01 and of K1, K3, K5 and K7 of document 02, with their refusals and what they
//! leave in lent buffers.

use super::calendar::{self, Calendar, WEEK};
use super::guess::Guess;
use super::listing::{Counted, Listing, Program, Verdict};
use super::refusal::Refusal;
use super::sheet::read;
use super::{has, meet, Set};
use std::cell::OnceCell;

/// The answer to a query.
#[derive(Clone, Copy, Debug, PartialEq, Eq)]
pub enum Answer {
    Yes,
    No,
    Open,
    None,
}

/// A sheet that passed the checks 1 to 7 and 15, and the constraints of the day. Its listing is computed at most once.
#[derive(Debug)]
pub struct Opened {
    pub names: Vec<Vec<u8>>,
    program: Program,
    listing: OnceCell<Listing>,
}

/// Opens a sheet, with no constraints of the day, or gives its refusal of 1 to 7 and 15.
pub fn open(bytes: &[u8]) -> Result<Opened, Refusal> {
    let sheet = read(bytes)?;
    let program = Program::of(&sheet);
    if program.negations.len() > 12 {
        return Err(Refusal::new(7, 0));
    }
    Ok(Opened { names: sheet.names, program, listing: OnceCell::new() })
}

/// The same under day masks, in and out; refusal 13 too.
pub fn open_under(bytes: &[u8], masks: [Set; 2]) -> Result<Opened, Refusal> {
    open(bytes)?.under(masks)
}

impl Opened {
    /// "13, place 0, for a mask bit at or above the atom count or an atom in both masks".
    fn under(self, masks: [Set; 2]) -> Result<Opened, Refusal> {
        let [in_atoms, out_atoms] = masks;
        if (in_atoms | out_atoms) >> self.names.len() != 0 || meet(in_atoms, out_atoms) {
            return Err(Refusal::new(13, 0));
        }
        Ok(Opened { names: self.names, program: self.program.under(masks), listing: OnceCell::new() })
    }

    /// The check: the numbers of atoms, of rules, pairs not among them, and of negations.
    pub fn check(&self) -> [usize; 3] {
        [self.names.len(), self.program.rules.len(), self.program.negations.len()]
    }

    /// The verdict on a guess; refusal 8.
    pub fn verdict(&self, guess: u32) -> Result<Verdict, Refusal> {
        Ok(self.program.verdict(self.guess(guess)?))
    }

    /// How many belief sets a guess has, and those written into `out`; refusals 8 and 9.
    pub fn belief_sets(&self, guess: u32, out: &mut [u16]) -> Result<usize, Refusal> {
        let sets = self.sets_of(self.guess(guess)?);
        write(&sets, sets.len(), out)?;
        Ok(sets.len())
    }

    /// The belief sets of a guess below 2^k, by rising number.
    pub fn sets_of(&self, guess: Guess) -> Vec<Set> {
        self.program.belief_sets(guess)
    }

    /// The world views and the six counts.
    pub fn listing(&self) -> &Listing {
        self.listing.get_or_init(|| self.program.listing())
    }

    /// Every guess in the order of the listing, and how it counts.
    pub fn counted(&self) -> Vec<(Guess, Counted)> {
        self.program.counted()
    }

    /// The six counts, and the records written into `out`; refusal 9.
    pub fn list(&self, out: &mut [u16]) -> Result<[u16; 6], Refusal> {
        written(self.listing(), out)
    }

    /// The list at a minute, "of the sheet with only the rules in force", and all its pairs; the calendar's refusals,
    /// 12 and 9.
    pub fn list_at(&self, calendar: &[u8], minute: u32, out: &mut [u16]) -> Result<[u16; 6], Refusal> {
        written(&self.listing_at(calendar, minute)?, out)
    }

    /// The world views and the six counts at a minute; the calendar's refusals and 12.
    pub fn listing_at(&self, calendar: &[u8], minute: u32) -> Result<Listing, Refusal> {
        let calendar = self.calendar(calendar)?;
        let minute = minute as usize;
        if minute >= WEEK {
            return Err(Refusal::new(12, 0));
        }
        let rules = calendar.in_force(&self.program.rules, minute);
        Ok(self.program.with_rules(rules).listing())
    }

    /// How many minutes of change a calendar has, and those written into `out`; its refusals and 9.
    pub fn changes(&self, calendar: &[u8], out: &mut [u16]) -> Result<usize, Refusal> {
        let minutes = self.calendar(calendar)?.changes();
        write(&minutes, minutes.len(), out)?;
        Ok(minutes.len())
    }

    /// What a calendar beside this sheet says; refusals 1, 2, 6 and 11.
    pub fn calendar(&self, bytes: &[u8]) -> Result<Calendar, Refusal> {
        calendar::read(bytes, self.program.rules.len())
    }

    /// The desk call: counts and records as byte pairs; refusal 9.
    fn list_bytes(&self, out: &mut [u8]) -> Result<(), Refusal> {
        let listing = self.listing();
        let mut words = listing.counts.to_vec();
        words.extend(records(listing));
        if words.len() > out.len() / 2 {
            return Err(Refusal::new(9, listing.views.len()));
        }
        for (pair, word) in out.chunks_exact_mut(2).zip(words) {
            pair.copy_from_slice(&word.to_le_bytes());
        }
        Ok(())
    }

    /// What the world views say of an atom; refusal 10. "[..] "none", given exactly when there is no world view".
    pub fn query(&self, atom: u32) -> Result<Answer, Refusal> {
        let atom = atom as usize;
        if atom >= self.names.len() {
            return Err(Refusal::new(10, 0));
        }
        let views = &self.listing().views;
        Ok(if views.is_empty() {
            Answer::None
        } else if views.iter().all(|view| has(view.known, atom)) {
            Answer::Yes
        } else if !views.iter().any(|view| has(view.possible, atom)) {
            Answer::No
        } else {
            Answer::Open
        })
    }

    fn guess(&self, guess: u32) -> Result<Guess, Refusal> {
        if guess < 1 << self.program.negations.len() {
            Ok(guess as Guess)
        } else {
            Err(Refusal::new(8, 0))
        }
    }
}

/// The number that the desk call returns for a sheet, and what it leaves in `out`.
pub fn list_code(opened: &Result<Opened, Refusal>, out: &mut [u8]) -> u32 {
    let answer = opened.as_ref().map_err(|&refusal| refusal).and_then(|opened| opened.list_bytes(out));
    answer.map_or_else(Refusal::code, |()| 0)
}

/// The counts of a listing, and its records written into `out`; refusal 9.
fn written(listing: &Listing, out: &mut [u16]) -> Result<[u16; 6], Refusal> {
    write(&records(listing), listing.views.len(), out)?;
    Ok(listing.counts)
}

fn records(listing: &Listing) -> Vec<u16> {
    listing.views.iter().flat_map(|view| view.words()).collect()
}

/// Writes words at the front of a buffer; refusal 9 with `count` as its place when the buffer is short.
fn write(words: &[u16], count: usize, out: &mut [u16]) -> Result<(), Refusal> {
    out.get_mut(..words.len()).ok_or(Refusal::new(9, count))?.copy_from_slice(words);
    Ok(())
}
