//! A sheet to be listed, what of its list was found by hand, and the buffers that are lent for it.

use super::{spaced, Case};
use crate::request::LIST;
use crate::solver::calls::open_under;

pub struct Listed {
    title: String,
    sheet: Vec<u8>,
    masks: [u16; 2],
    counts: Option<[u16; 6]>,
    views: Option<Vec<[u16; 4]>>,
}

pub fn listed(title: impl Into<String>, sheet: Vec<u8>) -> Listed {
    Listed { title: title.into(), sheet, masks: [0, 0], counts: None, views: None }
}

impl Listed {
    /// Under day masks, in and out.
    pub fn under(self, masks: [u16; 2]) -> Listed {
        Listed { masks, ..self }
    }

    /// The six counts are by hand.
    pub fn counted(self, counts: [u16; 6]) -> Listed {
        Listed { counts: Some(counts), ..self }
    }

    /// The views are by hand too.
    pub fn views(self, views: &[[u16; 4]]) -> Listed {
        Listed { views: Some(views.to_vec()), ..self }
    }

    /// Buffers of so many cells.
    pub fn cells(&self, lengths: &[usize]) -> Vec<Case> {
        let case = |&cells: &usize| {
            let case = Case::new(&self.title, LIST, &self.sheet, 0, cells).under(self.masks);
            self.by_hand(cells).map_or(case.clone(), |by_hand| case.owing(&by_hand))
        };
        lengths.iter().map(case).collect()
    }

    fn by_hand(&self, cells: usize) -> Option<String> {
        let views = self.counts.map(|counts| counts[0].into()).or(self.views.as_ref().map(Vec::len))?;
        if 4 * views > cells {
            return Some(format!("9 {views} : .."));
        }
        let counts = self.counts.map_or(format!("{views} ? ? ? ? ?"), |counts| spaced(&counts));
        Some(match &self.views {
            None => format!("0 {counts} : ??"),
            Some(views) if views.is_empty() => format!("0 {counts} : .."),
            Some(views) => format!("0 {counts} : {} ..", spaced(&views.concat())),
        })
    }

    /// Buffers of so many cells; the sheet is refused so by hand.
    pub fn refused(&self, numbers: [u32; 2], lengths: &[usize]) -> Vec<Case> {
        let by_hand = format!("{} : ..", spaced(&numbers));
        self.cells(lengths).into_iter().map(|case| case.owing(&by_hand)).collect()
    }

    /// How many cells the records fill.
    fn filled(&self) -> usize {
        4 * open_under(&self.sheet, self.masks).expect("an accepted sheet").listing().views.len()
    }

    /// A buffer with so many cells more than the records fill.
    pub fn longer(&self, more: usize) -> Vec<Case> {
        self.cells(&[self.filled() + more])
    }

    /// A buffer that the records fill, and one of one cell less.
    pub fn edges(&self) -> Vec<Case> {
        let filled = self.filled();
        self.cells(&[filled, filled - 1])
    }

    /// A longer buffer, one that the records fill, one of one cell less and an empty one.
    pub fn all_lengths(&self, more: usize) -> Vec<Case> {
        let filled = self.filled();
        self.cells(&[filled + more, filled, filled.saturating_sub(1), 0])
    }
}
