//! The steps that sheets and calendars are read by: fields one after the other, and nothing after the last.

use super::refusal::Refusal;

/// Bytes, and how many of them were read.
pub struct Reader<'a> {
    bytes: &'a [u8],
    pub at: usize,
}

impl<'a> Reader<'a> {
    pub fn new(bytes: &'a [u8]) -> Self {
        Reader { bytes, at: 0 }
    }

    /// The next field of so many bytes: "a field's presence is checked before its contents".
    pub fn field(&mut self, length: usize) -> Result<&'a [u8], Refusal> {
        let end = self.at + length;
        let field = self.bytes.get(self.at..end).ok_or(Refusal::new(1, self.bytes.len()))?;
        self.at = end;
        Ok(field)
    }

    /// A count of one byte.
    pub fn count(&mut self, most: u8) -> Result<u8, Refusal> {
        let place = self.at;
        match self.field(1)?[0] {
            count if count > most => Err(Refusal::new(2, place)),
            count => Ok(count),
        }
    }

    /// Nothing follows.
    pub fn end(&self) -> Result<(), Refusal> {
        if self.at < self.bytes.len() {
            return Err(Refusal::new(6, self.at));
        }
        Ok(())
    }
}
