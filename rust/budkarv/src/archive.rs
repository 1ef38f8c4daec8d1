//! The archive's listing as a safe call. All unsafe code of the crate is here.

use crate::{Day, Listing, Refusal};

extern "C" {
    // A slice of Rattle is a pointer and a length.
    fn budkarv_list(
        sheet: *const u8,
        sheet_len: usize,
        in_atoms: u16,
        out_atoms: u16,
        bytes: *mut u8,
        bytes_len: usize,
    ) -> u32;
}

/// Bytes for the six counts and 4,096 records. There are no more guesses, so that 9, "too short", is never returned.
const ROOM: usize = 12 + 8 * 4_096;

/// The world views of a sheet, larger guesses first and equal sizes by rising number, and the six counts; or why the
/// sheet is refused.
pub fn list(sheet: &[u8]) -> Result<Listing, Refusal> {
    list_on(sheet, Day::default())
}

/// The same on a day of which some atoms are known: as if the sheet had the constraint "← not a" for each atom a that is
/// in, and "← a" for each that is out. An atom that is not on the sheet, or is both in and out, is refused.
///
/// ```
/// use budkarv::{Atoms, Day};
///
/// // Atoms a and b; a or b.
/// let sheet = [2, 1, b'a', 1, b'b', 1, 3, 0, 0, 0, 0, 0, 0, 0, 0, 0, 0, 0, 0, 0, 0, 0, 0];
/// let either = budkarv::list(&sheet)?;
/// assert_eq!((either.views[0].known.bits(), either.views[0].sets), (0, 2));
///
/// let day = Day { in_atoms: Atoms::default(), out_atoms: Atoms::from_bits(0b01) };
/// let without_a = budkarv::list_on(&sheet, day)?;
/// assert!(without_a.views[0].known.contains(1), "a is out, so b is known");
///
/// let day = Day { in_atoms: Atoms::from_bits(0b100), out_atoms: Atoms::default() };
/// let refusal = budkarv::list_on(&sheet, day).unwrap_err();
/// assert_eq!(
///     refusal.to_string(),
///     "refusal 13: a day mask has a bit at or above the number of atoms, or an atom is in both"
/// );
/// # Ok::<(), budkarv::Refusal>(())
/// ```
pub fn list_on(sheet: &[u8], day: Day) -> Result<Listing, Refusal> {
    let (in_atoms, out_atoms) = (day.in_atoms.bits(), day.out_atoms.bits());
    let mut out = vec![0; ROOM];
    // SAFETY: both pairs are those of live slices, `out` is borrowed alone, and the function keeps neither pointer.
    let code = unsafe { budkarv_list(sheet.as_ptr(), sheet.len(), in_atoms, out_atoms, out.as_mut_ptr(), out.len()) };
    match Refusal::from_code(code) {
        Some(refusal) => Err(refusal),
        None => Ok(Listing::from_bytes(&out)),
    }
}
