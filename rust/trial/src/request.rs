//! Requests of the program `calls`, and the line that the second solver gives for each. All numbers of a request have
//! the low byte first.

use crate::sharing::Sharing;
use crate::solver::calls::{open, open_under, Answer, Opened};
use crate::solver::listing::Verdict;
use crate::solver::refusal::Refusal;
use crate::solver::sharing::{share, Refused, Share, Test};
use std::fmt;

pub const CHECK: u8 = 0;
pub const VERDICT: u8 = 1;
pub const BELIEF_SETS: u8 = 2;
pub const LIST: u8 = 3;
pub const QUERY: u8 = 4;
pub const LIST_AT: u8 = 5;
pub const CHANGES: u8 = 6;
pub const SHARE: u8 = 7;

/// The most bytes of a sheet and of a companion, and the most cells, of a request that is answered.
pub const MOST_SHEET: usize = 2_048;
pub const MOST_COMPANION: usize = 12_288;
pub const MOST_CELLS: u16 = 33_000;

/// One call. What it does not take is passed over: the day masks, in and out, by `CHECK`, `LIST_AT`, `CHANGES` and
/// `SHARE`; the companion by all but `LIST_AT` and `CHANGES`, whose calendar it is, and `SHARE`, which takes its sheets
/// and cells from there, its allowance from the argument, and passes over the request's own sheet and cells.
#[derive(Clone, Debug, Default, PartialEq, Eq)]
pub struct Request {
    pub call: u8,
    pub sheet: Vec<u8>,
    pub argument: u32,
    pub masks: [u16; 2],
    pub companion: Vec<u8>,
    pub cells: u16,
    pub first: u16,
}

/// A line: the call; the refusal's number and place, of `SHARE` the sheet's position too, or 0 and the values; the cells
/// after the call.
#[derive(Clone, Debug, PartialEq, Eq)]
pub struct Line {
    pub call: u8,
    pub numbers: Vec<u32>,
    pub cells: Vec<u16>,
}

impl fmt::Display for Line {
    fn fmt(&self, f: &mut fmt::Formatter) -> fmt::Result {
        write!(f, "{}", self.call)?;
        self.numbers.iter().try_for_each(|number| write!(f, " {number}"))?;
        write!(f, " :")?;
        self.cells.iter().try_for_each(|cell| write!(f, " {cell}"))
    }
}

impl Request {
    pub fn bytes(&self) -> Vec<u8> {
        let mut bytes = vec![self.call];
        bytes.extend((self.sheet.len() as u16).to_le_bytes());
        bytes.extend(&self.sheet);
        bytes.extend(self.argument.to_le_bytes());
        bytes.extend(self.masks.iter().flat_map(|mask| mask.to_le_bytes()));
        bytes.extend((self.companion.len() as u16).to_le_bytes());
        bytes.extend(&self.companion);
        bytes.extend(self.cells.to_le_bytes());
        bytes.extend(self.first.to_le_bytes());
        bytes
    }

    /// The cells before the call; of `SHARE` those of all sheets, one after the other.
    pub fn lent(&self) -> Vec<u16> {
        match self.call {
            SHARE => self.sharing().lent(self.first).concat(),
            _ => (0..self.cells).map(|i| self.first.wrapping_add(i)).collect(),
        }
    }

    /// The sheets of a request of `SHARE`.
    pub fn sharing(&self) -> Sharing {
        Sharing::read(&self.companion).expect("a companion that is answered")
    }

    /// The day masks, if the call takes them.
    pub fn day(&self) -> Option<[u16; 2]> {
        matches!(self.call, VERDICT | BELIEF_SETS | LIST | QUERY).then_some(self.masks)
    }

    /// The sheet, opened under the day masks if the call takes them.
    pub fn opened(&self) -> Result<Opened, Refusal> {
        match self.day() {
            Some(masks) => open_under(&self.sheet, masks),
            None => open(&self.sheet),
        }
    }

    /// The second solver's line.
    pub fn line(&self) -> Line {
        self.line_on(&self.opened())
    }

    /// The same, with the sheet opened before.
    pub fn line_on(&self, opened: &Result<Opened, Refusal>) -> Line {
        if self.call == SHARE {
            return self.line_by(&self.sharing().tests());
        }
        let mut cells = self.lent();
        let values = opened.as_ref().map_err(|&refusal| refusal).and_then(|opened| self.values(opened, &mut cells));
        let numbers = match values {
            Ok(values) => [vec![0], values].concat(),
            Err(Refusal { number, place }) => vec![number, place],
        };
        Line { call: self.call, numbers, cells }
    }

    /// The line of `SHARE`, with all tests of its sheets found before.
    pub fn line_by(&self, tests: &Result<Vec<Vec<Test>>, Refused>) -> Line {
        let mut buffers = self.sharing().lent(self.first);
        let numbers = match share(tests, self.argument, &mut buffers) {
            Ok(shares) => share_values(&shares),
            Err(Refused { refusal, position }) => vec![refusal.number, refusal.place, position as u32],
        };
        Line { call: self.call, numbers, cells: buffers.concat() }
    }

    fn values(&self, opened: &Opened, lent: &mut [u16]) -> Result<Vec<u32>, Refusal> {
        Ok(match self.call {
            CHECK => opened.check().map(|number| number as u32).to_vec(),
            VERDICT => verdict_values(opened.verdict(self.argument)?),
            BELIEF_SETS => vec![opened.belief_sets(self.argument, lent)? as u32],
            LIST => opened.list(lent)?.map(u32::from).to_vec(),
            QUERY => vec![query_value(opened.query(self.argument)?)],
            LIST_AT => opened.list_at(&self.companion, self.argument, lent)?.map(u32::from).to_vec(),
            CHANGES => vec![opened.changes(&self.companion, lent)? as u32],
            call => panic!("no call {call}"),
        })
    }
}

fn verdict_values(verdict: Verdict) -> Vec<u32> {
    match verdict {
        Verdict::Empty => vec![0],
        Verdict::Other { found } => vec![1, found.into()],
        Verdict::Verified { known, possible, sets } => vec![2, known.into(), possible.into(), sets.into()],
    }
}

/// 0, the tests in all, and of each sheet 1 if it is finished, its tests and its views.
fn share_values(shares: &[Share]) -> Vec<u32> {
    let values = |share: &Share| [share.finished.into(), share.tests as u32, share.views.len() as u32];
    let tests = shares.iter().map(|share| share.tests as u32).sum();
    [0, tests].into_iter().chain(shares.iter().flat_map(values)).collect()
}

fn query_value(answer: Answer) -> u32 {
    match answer {
        Answer::Yes => 0,
        Answer::No => 1,
        Answer::Open => 2,
        Answer::None => 3,
    }
}
