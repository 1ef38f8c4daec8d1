//! The fields that the rows of several tables have.

use crate::known::titled;
use crate::text::good;

/// The rows of a table: its lines without the comments.
pub fn rows(table: &'static str) -> impl Iterator<Item = &'static str> {
    table.lines().filter(|row| !row.starts_with('#'))
}

/// A sheet, by its number in `known.rs` or as text.
pub fn sheet(field: &str) -> Vec<u8> {
    match field.contains(':') {
        true => good(field),
        false => titled(&format!("{field}:")).sheet,
    }
}

/// So many numbers, parted by spaces.
pub fn numbers<const N: usize>(field: &str) -> Option<[u32; N]> {
    let numbers: Option<Vec<u32>> = field.split_whitespace().map(|number| number.parse().ok()).collect();
    numbers?.try_into().ok()
}

pub fn word(number: u32) -> u16 {
    number.try_into().expect("a number below 65536")
}
