//! Four studios on one allowance, K4 of document 02: the tests that each sheet's own listing makes, and the turns in
//! which an allowance is spent on them.

use super::calls::{open, Opened};
use super::listing::{view, Counted, View};
use super::refusal::Refusal;

/// The most sheets of a call.
pub const MOST_SHEETS: usize = 4;

/// A refusal, and the position of the sheet that it is of.
#[derive(Clone, Copy, Debug, PartialEq, Eq)]
pub struct Refused {
    pub refusal: Refusal,
    pub position: usize,
}

/// A test of a sheet's listing: the world view that is met in it, or none.
pub type Test = Option<View>;

/// What a call says of one sheet; the views are those met in its tests.
#[derive(Clone, Debug, PartialEq, Eq)]
pub struct Share {
    pub finished: bool,
    pub tests: usize,
    pub views: Vec<View>,
}

/// All tests of each sheet; refusal 14 for the number of sheets that the call is told, then 1 to 7 and 15 sheet by
/// sheet.
pub fn tests_of(told: usize, sheets: &[Vec<u8>]) -> Result<Vec<Vec<Test>>, Refused> {
    if told == 0 || told > MOST_SHEETS {
        return Err(Refused { refusal: Refusal::new(14, 0), position: 0 });
    }
    let mut opened = Vec::new();
    for (position, sheet) in sheets.iter().enumerate() {
        opened.push(open(sheet).map_err(|refusal| Refused { refusal, position })?);
    }
    Ok(opened.iter().map(tests).collect())
}

/// The tests of a sheet's own listing: "covered and ruled guesses being free", all others are tested.
fn tests(opened: &Opened) -> Vec<Test> {
    let test = |(guess, counted)| match counted {
        Counted::Tested(verdict) => Some(view(guess, verdict)),
        Counted::Covered | Counted::Ruled => None,
    };
    opened.counted().into_iter().filter_map(test).collect()
}

/// How many tests each sheet has had, of so many that there are: the call "goes round the unfinished sheets in their
/// order, one test each, [..] until the allowance is spent or all are finished".
pub fn dealt(all: &[usize], allowance: u32) -> Vec<usize> {
    let mut had = vec![0; all.len()];
    let mut left = allowance;
    while left > 0 && had != all {
        for position in 0..all.len() {
            if left > 0 && had[position] < all[position] {
                had[position] += 1;
                left -= 1;
            }
        }
    }
    had
}

/// What each sheet has of an allowance. It is finished "exactly when no guess that would be tested remains".
pub fn shares(tests: &[Vec<Test>], allowance: u32) -> Vec<Share> {
    let all: Vec<usize> = tests.iter().map(Vec::len).collect();
    let share = |(own, had): (&Vec<Test>, usize)| Share {
        finished: had == own.len(),
        tests: had,
        views: own[..had].iter().copied().flatten().collect(),
    };
    tests.iter().zip(dealt(&all, allowance)).map(share).collect()
}

/// Writes the records of each sheet at the front of its buffer. 9 "with the number of views reached" for the first whose
/// records don't fit; then nothing is written.
pub fn write(shares: &[Share], buffers: &mut [Vec<u16>]) -> Result<(), Refused> {
    let short = |(share, buffer): (&Share, &Vec<u16>)| 4 * share.views.len() > buffer.len();
    if let Some(position) = shares.iter().zip(&*buffers).position(short) {
        return Err(Refused { refusal: Refusal::new(9, shares[position].views.len()), position });
    }
    for (share, buffer) in shares.iter().zip(buffers) {
        let words: Vec<u16> = share.views.iter().flat_map(|view| view.words()).collect();
        buffer[..words.len()].copy_from_slice(&words);
    }
    Ok(())
}

/// The call, where all tests of its sheets are known, or why it is refused before it runs.
pub fn share(
    tests: &Result<Vec<Vec<Test>>, Refused>,
    allowance: u32,
    buffers: &mut [Vec<u16>],
) -> Result<Vec<Share>, Refused> {
    let shares = shares(tests.as_ref().map_err(|&refused| refused)?, allowance);
    write(&shares, buffers)?;
    Ok(shares)
}
