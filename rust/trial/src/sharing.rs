//! The companion of a request of call 7: the sheets that share the allowance, and how many cells each has.

use crate::solver::sharing::{tests_of, Refused, Test, MOST_SHEETS};

/// The most bytes of a sheet and the most cells for it.
pub const MOST_SHARED_SHEET: u16 = 2_048;
pub const MOST_SHARED_CELLS: u16 = 8_000;

/// The number of sheets that the call is told, and the sheets with their cells: as many, and at most four.
#[derive(Clone, Debug, PartialEq, Eq)]
pub struct Sharing {
    pub told: u8,
    pub sheets: Vec<Vec<u8>>,
    pub cells: Vec<u16>,
}

impl Sharing {
    /// At most four sheets, of which the call is told.
    pub fn of(sheets: &[Vec<u8>], cells: &[u16]) -> Sharing {
        Sharing { told: sheets.len() as u8, sheets: sheets.to_vec(), cells: cells.to_vec() }
    }

    /// One byte, the number of sheets; for each two bytes of length, the sheet, two bytes, its cells.
    pub fn bytes(&self) -> Vec<u8> {
        let mut bytes = vec![self.told];
        for (sheet, cells) in self.sheets.iter().zip(&self.cells) {
            bytes.extend((sheet.len() as u16).to_le_bytes());
            bytes.extend(sheet);
            bytes.extend(cells.to_le_bytes());
        }
        bytes
    }

    /// What a companion says. None where it is cut off, has bytes left or goes beyond a bound: then the program ends.
    pub fn read(bytes: &[u8]) -> Option<Sharing> {
        let (&told, mut rest) = bytes.split_first()?;
        let (mut sheets, mut cells) = (vec![], vec![]);
        for _ in 0..usize::from(told).min(MOST_SHEETS) {
            let length = word(&mut rest, MOST_SHARED_SHEET)?;
            let (sheet, after) = rest.split_at_checked(length.into())?;
            rest = after;
            sheets.push(sheet.to_vec());
            cells.push(word(&mut rest, MOST_SHARED_CELLS)?);
        }
        rest.is_empty().then_some(Sharing { told, sheets, cells })
    }

    /// The buffers before the call: each begins anew at `first`.
    pub fn lent(&self, first: u16) -> Vec<Vec<u16>> {
        self.cells.iter().map(|&cells| (0..cells).map(|i| first.wrapping_add(i)).collect()).collect()
    }

    /// All tests of each sheet, or why the call is refused before it runs.
    pub fn tests(&self) -> Result<Vec<Vec<Test>>, Refused> {
        tests_of(self.told.into(), &self.sheets)
    }
}

/// The next two bytes as a number, if it is at most so large.
fn word(rest: &mut &[u8], most: u16) -> Option<u16> {
    let (&two, after) = rest.split_first_chunk()?;
    *rest = after;
    Some(u16::from_le_bytes(two)).filter(|&word| word <= most)
}
