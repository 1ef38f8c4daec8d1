//! Sheets whose lists are known: the kiln sheet and the ten of document 01, and seven of our own.

use crate::text::good;

/// A sheet with its views (guess, known, possible, sets) and its six counts.
pub struct Known {
    pub title: &'static str,
    pub sheet: Vec<u8>,
    pub views: &'static [[u16; 4]],
    pub counts: [u16; 6],
}

/// A name or number and the sheet's text; the views; the counts.
type Row = (&'static str, &'static [[u16; 4]], [u16; 6]);

const KILN: Row = ("kiln: glaze bisque: glaze | bisque; <- not K glaze", &[[0, 1, 1, 1]], [1, 0, 1, 1, 0, 0]);

const DOCUMENT: [Row; 10] = [
    ("1: :", &[[0, 0, 0, 1]], [1, 0, 0, 1, 0, 0]),
    ("2: a: a <- K a", &[[1, 0, 0, 1]], [1, 1, 0, 1, 0, 0]),
    ("3: a: a <- not K a", &[], [0, 0, 1, 1, 1, 0]),
    ("4: a: a <- M a", &[[1, 1, 1, 1]], [1, 1, 0, 1, 0, 0]),
    ("5: a: a <- not M a", &[], [0, 0, 1, 1, 1, 0]),
    ("6: a b: a <- not K b; b <- not K a", &[[1, 2, 2, 1], [2, 1, 1, 1]], [2, 1, 1, 2, 0, 0]),
    ("7: a: a <- not not a", &[[0, 0, 1, 2]], [1, 0, 0, 1, 0, 0]),
    ("8: a b: a | b", &[[0, 0, 3, 2]], [1, 0, 0, 1, 0, 0]),
    ("9: a: a; <- a", &[], [0, 0, 1, 0, 0, 0]),
    ("10: a b c: c <- M a; a <- b; b <- a", &[[0, 0, 0, 1]], [1, 0, 0, 2, 0, 1]),
];

/// The sheets of `crates/semantics/specs/Examples/Own.antt`.
const OWN: [Row; 7] = [
    ("own 1: a b c: a <- M a, M b; c <- a, K c; <- not not b; b <- not M c", &[], [0, 0, 12, 4, 4, 0]),
    ("own 2: a: a <- M a; <- K a", &[], [0, 0, 2, 2, 0, 2]),
    ("own 3: a b: b <- not M a, not M b; a <- K a, K b", &[], [0, 0, 13, 3, 3, 0]),
    ("own 4: a b c: a | b; <- M b, not M c; b | c <- not K a", &[[7, 0, 7, 2]], [1, 7, 0, 1, 0, 0]),
    ("own 5: a b: a | b <- M b; b; a <- not b, M a", &[[2, 2, 2, 1]], [1, 1, 1, 2, 0, 1]),
    (
        "own 6: a b c: <- not not c, M b; c <- not K a, not K b; a <- not K b, not K c; b <- not a, not c",
        &[[13, 2, 2, 1], [3, 4, 4, 1], [10, 1, 1, 1]],
        [3, 8, 4, 4, 0, 1],
    ),
    ("own 7: a b c d: a <- b; b <- c; c <- d, M a", &[[0, 0, 0, 1]], [1, 0, 1, 1, 0, 0]),
];

fn from(row: Row) -> Known {
    let (title, views, counts) = row;
    let (_, text) = title.split_once(": ").expect("a name, and the text");
    Known { title, sheet: good(text), views, counts }
}

/// Sheets 1 to 10 of document 01.
pub fn known() -> Vec<Known> {
    DOCUMENT.map(from).into()
}

/// All sheets with known lists.
pub fn all() -> Vec<Known> {
    [KILN].into_iter().chain(DOCUMENT).chain(OWN).map(from).collect()
}

/// The sheet whose title begins so.
pub fn titled(start: &str) -> Known {
    all().into_iter().find(|known| known.title.starts_with(start)).expect(start)
}

/// The kiln sheet.
pub fn kiln() -> Vec<u8> {
    from(KILN).sheet
}

/// What `views` prints for the kiln sheet.
pub const KILN_LINES: &str = "sheet 2 2 1\nview 0 1 glaze\nset glaze\ntally 1 0 1 1 0 0\n";
