//! The ways to share an allowance, part by part: the right one, and wrong ones, each of which random calls have to show.
//! The right one deals no turns: how many tests a sheet has had it finds by the number of whole rounds.

mod counted;
mod dealt;
mod refused;

use crate::request::{Line, Request, SHARE};
use crate::sharing::Sharing;
use crate::solver::calls::open;
use crate::solver::guess::Guess;
use crate::solver::listing::{view, Counted, View};
use crate::solver::refusal::Refusal;
use crate::solver::sharing::Test;
use std::ops::Range;

/// Every guess of a sheet in the order, and how it counts.
type Guesses = Vec<(Guess, Counted)>;

/// Of each sheet its guesses, or its refusal.
pub type Read = Vec<Result<Guesses, Refusal>>;

pub fn read(sheets: &[Vec<u8>]) -> Read {
    sheets.iter().map(|sheet| open(sheet).map(|opened| opened.counted())).collect()
}

/// A call.
pub struct Call {
    sharing: Sharing,
    allowance: u32,
    first: u16,
    sheets: Read,
}

impl Call {
    /// A request of `SHARE`, with what its sheets say.
    pub fn new(request: &Request, sheets: Read) -> Call {
        Call { sharing: request.sharing(), allowance: request.argument, first: request.first, sheets }
    }

    /// The guesses of the sheet at a position, which is accepted.
    fn guesses(&self, position: usize) -> &Guesses {
        self.sheets[position].as_ref().expect("an accepted sheet")
    }

    /// How many cells the sheet at a position has.
    fn cells(&self, position: usize) -> usize {
        self.sharing.cells[position].into()
    }

    /// The refusal of the sheet at a position.
    fn refusal(&self, position: usize) -> Option<Refused> {
        self.sheets[position].as_ref().err().map(|refusal| [refusal.number, refusal.place, position as u32])
    }

    fn positions(&self) -> Range<usize> {
        0..self.sheets.len()
    }
}

/// A refusal's number, its place and the position of its sheet.
type Refused = [u32; 3];

/// A way to answer a call.
#[derive(Clone, Copy)]
pub struct Way {
    /// The refusal before the run.
    before: fn(&Call) -> Option<Refused>,
    /// The tests of the sheet at a position.
    tests: fn(&Call, usize) -> Vec<Test>,
    /// How many tests each sheet has had, of so many.
    dealt: fn(&Call, &[usize]) -> Vec<usize>,
    /// The views of a sheet that has had so many of its tests.
    met: fn(&[Test], usize) -> Vec<View>,
    /// The refusal after the run, with these views reached.
    after: fn(&Call, &[Vec<View>]) -> Option<Refused>,
    /// Whether the records that fit are written though the call is refused after the run.
    writes: bool,
    /// Which sheets are finished, of so many tests each, when so many were had.
    finished: fn(&Call, &[usize], &[usize]) -> Vec<bool>,
    /// The tests in all, when so many were had.
    total: fn(&Call, &[usize]) -> usize,
}

pub const RIGHT: Way = Way {
    before: |call| told(call).or_else(|| first_refused(call)),
    tests: |call, position| tests_where(call, position, |_, counted| matches!(counted, Counted::Tested(_))),
    dealt: |call, all| by_rounds(all, call.allowance as usize),
    met: |tests, had| tests[..had].iter().copied().flatten().collect(),
    after: |call, views| call.positions().find_map(|position| short(call, position, views[position].len())),
    writes: false,
    finished: |_, all, had| all.iter().zip(had).map(|(all, had)| all == had).collect(),
    total: |_, had| had.iter().sum(),
};

impl Way {
    /// The line of a call.
    pub fn line(&self, call: &Call) -> Line {
        let mut buffers = call.sharing.lent(call.first);
        let numbers = match (self.before)(call) {
            Some(refused) => refused.to_vec(),
            None => self.run(call, &mut buffers),
        };
        Line { call: SHARE, numbers, cells: buffers.concat() }
    }

    fn run(&self, call: &Call, buffers: &mut [Vec<u16>]) -> Vec<u32> {
        let tests: Vec<Vec<Test>> = call.positions().map(|position| (self.tests)(call, position)).collect();
        let all: Vec<usize> = tests.iter().map(Vec::len).collect();
        let had = (self.dealt)(call, &all);
        let views: Vec<Vec<View>> = tests.iter().zip(&had).map(|(tests, &had)| (self.met)(tests, had)).collect();
        let refused = (self.after)(call, &views);
        if refused.is_none() || self.writes {
            buffers.iter_mut().zip(&views).for_each(|(buffer, views)| write(buffer, views));
        }
        if let Some(refused) = refused {
            return refused.to_vec();
        }
        let finished = (self.finished)(call, &all, &had);
        let values = |i: usize| [finished[i].into(), had[i] as u32, views[i].len() as u32];
        let total = (self.total)(call, &had) as u32;
        [0, total].into_iter().chain(call.positions().flat_map(values)).collect()
    }
}

/// Writes the records of some views, as far as they fit.
fn write(buffer: &mut [u16], views: &[View]) {
    let words = views.iter().flat_map(|view| view.words());
    buffer.iter_mut().zip(words).for_each(|(cell, word)| *cell = word);
}

/// Refusal 14.
fn told(call: &Call) -> Option<Refused> {
    (!(1..=4).contains(&call.sharing.told)).then_some([14, 0, 0])
}

/// The refusal of the first sheet that has one.
fn first_refused(call: &Call) -> Option<Refused> {
    call.positions().find_map(|position| call.refusal(position))
}

/// Refusal 9 for the sheet at a position, where so many views don't fit.
fn short(call: &Call, position: usize, views: usize) -> Option<Refused> {
    (4 * views > call.cells(position)).then_some([9, views as u32, position as u32])
}

/// The guesses of a sheet that are taken for tests.
fn tests_where(call: &Call, position: usize, is_test: impl Fn(Guess, Counted) -> bool) -> Vec<Test> {
    let test = |(guess, counted)| match counted {
        Counted::Tested(verdict) => view(guess, verdict),
        Counted::Covered | Counted::Ruled => None,
    };
    let guesses = call.guesses(position).iter().copied();
    guesses.filter(|&(guess, counted)| is_test(guess, counted)).map(test).collect()
}

/// All views of the sheet at a position.
fn all_views(call: &Call, position: usize) -> Vec<View> {
    (RIGHT.tests)(call, position).into_iter().flatten().collect()
}

/// How many whole rounds an allowance has, and what is left then.
fn rounds(all: &[usize], allowance: usize) -> (usize, usize) {
    let spent = |rounds: usize| all.iter().map(|&own| own.min(rounds)).sum::<usize>();
    let most = all.iter().copied().max().unwrap_or(0);
    let rounds = (0..=most).rev().find(|&rounds| spent(rounds) <= allowance).unwrap_or(0);
    (rounds, allowance - spent(rounds))
}

/// The tests had, of so many: one in each whole round, and what is left one each from the front of those that have more.
fn by_rounds(all: &[usize], allowance: usize) -> Vec<usize> {
    let (rounds, left) = rounds(all, allowance);
    let before = |position: usize| all[..position].iter().filter(|&&own| own > rounds).count();
    let had = |(position, &own): (usize, &usize)| match own > rounds && before(position) < left {
        true => rounds + 1,
        false => own.min(rounds),
    };
    all.iter().enumerate().map(had).collect()
}

/// Every wrong way with its name.
pub fn wrong() -> Vec<(&'static str, Way)> {
    [&dealt::WRONG[..], &counted::WRONG_TESTS, &counted::WRONG_FINISHED, &refused::WRONG].concat()
}
