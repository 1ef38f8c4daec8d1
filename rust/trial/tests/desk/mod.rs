//! The archive's function, called as from C.

use budkarv as _;

extern "C" {
    fn budkarv_list(
        sheet: *const u8,
        sheet_len: usize,
        in_atoms: u16,
        out_atoms: u16,
        bytes: *mut u8,
        bytes_len: usize,
    ) -> u32;
}

/// 0, or the refusal's number times 65,536 plus its place.
pub fn desk_call(sheet: &[u8], [in_atoms, out_atoms]: [u16; 2], out: &mut [u8]) -> u32 {
    // SAFETY: both pairs are those of live slices, `out` is borrowed alone, and the function keeps neither pointer.
    unsafe { budkarv_list(sheet.as_ptr(), sheet.len(), in_atoms, out_atoms, out.as_mut_ptr(), out.len()) }
}
