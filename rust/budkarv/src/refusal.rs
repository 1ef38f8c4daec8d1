//! Why a call is refused, in words.

use std::error::Error;
use std::fmt;

/// A refusal: its number, and a place in the sheet or a count. Shown in words.
#[derive(Clone, Copy, Debug, PartialEq, Eq)]
pub struct Refusal {
    number: u32,
    place: u32,
}

impl Refusal {
    /// The number of the refusal; `list` has those from 1 to 7 and 15, `list_on` 13 too.
    pub fn number(self) -> u32 {
        self.number
    }

    /// Of 1 to 6 and of 15 an offset in the sheet, from 0; of 9 the number of sets or of views; of the others 0.
    pub fn place(self) -> u32 {
        self.place
    }

    /// The refusal of a number that the archive returned, its number times 65,536 plus its place; 0 is none.
    pub(crate) fn from_code(code: u32) -> Option<Self> {
        let refusal = Refusal { number: code / 65_536, place: code % 65_536 };
        (code != 0).then_some(refusal)
    }
}

impl fmt::Display for Refusal {
    /// The number, and words: of 1 to 7 and of 15 those that `./views` prints too.
    fn fmt(&self, f: &mut fmt::Formatter<'_>) -> fmt::Result {
        let Refusal { number, place } = *self;
        write!(f, "refusal {number}: ")?;
        match number {
            1 => write!(f, "the sheet ends too soon, after {place} bytes"),
            2 => write!(f, "over 15 atoms, 64 rules or 7 pairs, by the count at byte {place}"),
            3 => write!(f, "a name's length or one of its bytes is bad, at byte {place}"),
            4 => write!(f, "a name equals an earlier one; its length is at byte {place}"),
            5 => write!(f, "a mask has a bit at or above the number of atoms, at byte {place}"),
            6 => write!(f, "bytes after the last pair, from byte {place}"),
            7 => write!(f, "over 12 epistemic negations"),
            8 => write!(f, "the guess is not below 2^k"),
            9 => write!(f, "too few words lent for {place} sets or views"),
            10 => write!(f, "the atom is not below the number of atoms"),
            13 => write!(f, "a day mask has a bit at or above the number of atoms, or an atom is in both"),
            15 => write!(
                f,
                "a pair's atom is not on the sheet, equals the other or is in an earlier pair, at byte {place}"
            ),
            _ => write!(f, "no such refusal"),
        }
    }
}

impl Error for Refusal {}
