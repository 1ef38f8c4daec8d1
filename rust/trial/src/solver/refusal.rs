//! A refusal, and the one number that the desk call returns for it.

/// A refusal's number and its place.
#[derive(Clone, Copy, Debug, PartialEq, Eq)]
pub struct Refusal {
    pub number: u32,
    pub place: u32,
}

impl Refusal {
    /// Refusal `number` at an offset of the sheet or the calendar, or with a count in its place.
    pub fn new(number: u32, place: usize) -> Self {
        let place = u32::try_from(place).expect("a place fits 32 bits");
        Refusal { number, place }
    }

    /// "The refusal's number times 65,536 plus its place."
    pub fn code(self) -> u32 {
        self.number * 65_536 + self.place
    }
}
