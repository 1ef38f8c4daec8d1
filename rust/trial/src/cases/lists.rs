//! Cases of the list: known lists, cycles, limits, refusals.

use super::listed::listed;
use super::sheets::*;
use super::Case;
use crate::known;
use crate::text::good;
use crate::write::*;

pub fn cases() -> Vec<Case> {
    let parts = [known_lists, cycles, limits, refused];
    parts.into_iter().flat_map(|part| part()).collect()
}

fn known_lists() -> Vec<Case> {
    let mut cases = Vec::new();
    for known in known::all() {
        let listed = listed(known.title, known.sheet).counted(known.counts).views(known.views);
        cases.extend(listed.all_lengths(5));
        cases.extend(match known.title.split(':').next() {
            Some("6") => listed.cells(&[0, 1, 2, 3, 4, 5, 6, 7, 8, 9, 10, 101]),
            Some("3" | "9") => listed.cells(&[1, 2, 3, 4, 101]),
            _ => vec![],
        });
    }
    cases
}

/// The maximal independent sets of a cycle of so many atoms: 2 or 3 from each atom to the next.
fn independent(count: usize) -> Vec<u16> {
    let is_in = |set: u16, atom: usize| set >> (atom % count) & 1 == 1;
    let next = |set: u16, atom: usize| (1..=count).find(|&step| is_in(set, atom + step));
    let well_apart =
        |set: u16| (0..count).filter(|&atom| is_in(set, atom)).all(|atom| matches!(next(set, atom), Some(2 | 3)));
    (1..1 << count).filter(|&set| well_apart(set)).collect()
}

/// Cycle graphs, each atom known where no neighbour is: the atoms known are a maximal independent set, and each such
/// set is that of a view. With "not K" the guess is the complement of the set, with "not M" the set itself.
fn cycles() -> Vec<Case> {
    let mut cases = Vec::new();
    for count in 3..13 {
        for (mask, complement) in [(NOT_K, (1 << count) - 1), (NOT_M, 0)] {
            let neighbours = |atom: usize| 1 << ((atom + 1) % count) | 1 << ((atom + count - 1) % count);
            let rules: Vec<_> = (0..count).map(|atom| rule(&[(HEAD, 1 << atom), (mask, neighbours(atom))])).collect();
            let mut views: Vec<[u16; 4]> =
                independent(count).iter().map(|&set| [set ^ complement, set, set, 1]).collect();
            views.sort_by_key(|view| (16 - view[0].count_ones(), view[0]));
            let listed = listed(format!("cycle of {count}, mask {mask}"), lettered(count, &rules)).views(&views);
            cases.extend(if [5, 12].contains(&count) { listed.edges() } else { listed.longer(count % 3) });
        }
    }
    cases
}

/// 15 atoms, up to 64 rules.
fn limits() -> Vec<Case> {
    let mut many = many_rules();
    many[63] = rule(&[(HEAD, 2), (NOT_K, 1)]);
    // "Not K" of six atoms, "M" of none.
    let longest = listed("longest sheet", longest()).counted([1, 63, 4032, 1, 0, 0]).views(&[[1365, 0, 0, 1]]);
    let free = listed("15 choices", free(15)).counted([1, 0, 0, 1, 0, 0]).views(&[[0, 0, 32_767, 32_768]]);
    let mut cases = [longest.longer(5), free.edges()].concat();
    cases.extend(listed("15 atoms, no rules", lettered(15, &[])).longer(5));
    cases.extend(listed("15 atoms, 64 rules, not K in the last", lettered(15, &many)).longer(5));
    cases
}

/// The sheet is checked first, then the buffer.
fn refused() -> Vec<Case> {
    let each_known = |atoms: usize, possible: u16| -> Vec<u8> {
        let known = |atom: u16| rule(&[(HEAD, atom), (K, atom), (M, possible & atom)]);
        lettered(atoms, &(0..atoms).map(|atom| known(1 << atom)).collect::<Vec<_>>())
    };
    let mut cases = listed("7 before 9", each_known(13, 0)).refused([7, 0], &[0, 3]);
    cases.extend(listed("7 before 9, 14 negations", each_known(7, 127)).refused([7, 0], &[0]));
    for (numbers, sheet) in bad() {
        let more = [[1, 0], [2, 5], [4, 3], [6, 39], [15, 39]].contains(&numbers);
        let lengths = if more { &[0, 5, 1, 101][..] } else { &[0, 5] };
        cases.extend(listed(format!("bad sheet, refusal {}", numbers[0]), sheet).refused(numbers, lengths));
    }
    cases.extend(listed("a good sheet", good(GOOD)).cells(&[0, 1, 2, 3, 4, 5, 6]));
    cases
}
