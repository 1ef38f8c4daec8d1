//! Random pairs of opposites: accepted ones, and third sections of a sheet with one thing wrong.

use crate::random::Random;
use crate::solver::sheet::Pair;

/// Pairs over so many atoms, all of them accepted: none, one or two, or as many as there can be.
pub fn random_pairs(random: &mut Random, atoms: usize) -> Vec<Pair> {
    let count = random.pick(&[0, 0, 0, 1, 1, 2, 7]);
    pairs_of(random, atoms, count)
}

/// So many pairs over so many atoms, as far as there can be so many.
pub fn pairs_of(random: &mut Random, atoms: usize, count: usize) -> Vec<Pair> {
    let mut left: Vec<u8> = (0..atoms as u8).collect();
    let mut atom = || left.swap_remove(random.below(left.len()));
    (0..count.min(atoms / 2)).map(|_| [atom(), atom()]).collect()
}

/// What is wrong with a third section. Where an atom stands, first or second, is 0 or 1.
#[derive(Clone, Copy, Debug, PartialEq, Eq)]
pub enum Fault {
    NoCount,
    CountOver,
    NoPair,
    HalfPair,
    /// An atom number at or above the number of atoms.
    TooLarge(usize),
    Twice,
    /// The atom that stood there in an earlier pair stands here.
    Earlier(usize, usize),
    Extra,
}

pub const FAULTS: [Fault; 12] = [
    Fault::NoCount,
    Fault::CountOver,
    Fault::NoPair,
    Fault::HalfPair,
    Fault::TooLarge(0),
    Fault::TooLarge(1),
    Fault::Twice,
    Fault::Earlier(0, 0),
    Fault::Earlier(0, 1),
    Fault::Earlier(1, 0),
    Fault::Earlier(1, 1),
    Fault::Extra,
];

/// A third section that is refused.
pub struct Refused {
    pub bytes: Vec<u8>,
    pub number: u32,
    /// The refusal's place, from the section's first byte.
    pub at: usize,
}

/// A third section over 3 to 15 atoms with this wrong and nothing before it; after it there may be anything.
pub fn faulty(random: &mut Random, atoms: usize, fault: Fault) -> Refused {
    let least = usize::from(matches!(fault, Fault::HalfPair | Fault::Earlier(..)));
    let count = random.between(least, ((atoms - 1) / 2).min(6));
    let pairs = pairs_of(random, atoms, count);
    let end = 1 + 2 * count;
    let bytes = |count: usize, more: &[u8]| [&[count as u8], pairs.as_flattened(), more].concat();
    let refused = |bytes: Vec<u8>, number, at| Refused { bytes, number, at };
    match fault {
        Fault::NoCount => refused(vec![], 1, 0),
        Fault::CountOver => refused(bytes(random.pick(&[8, 9, 128, 255]), &[]), 2, 0),
        Fault::NoPair => refused(bytes(random.between(count + 1, 7), &[]), 1, end),
        Fault::HalfPair => refused(bytes(count, &[])[..end - 1].to_vec(), 1, end - 1),
        Fault::Extra => {
            let more = anything(random, 1);
            refused(bytes(count, &more), 6, end)
        }
        Fault::TooLarge(_) | Fault::Twice | Fault::Earlier(..) => {
            let bad = bad_pair(random, atoms, &pairs, fault);
            let more = [&bad[..], &anything(random, 0)].concat();
            refused(bytes(random.between(count + 1, 7), &more), 15, end)
        }
    }
}

/// At least so many bytes.
fn anything(random: &mut Random, least: usize) -> Vec<u8> {
    (0..random.between(least, 4)).map(|_| random.below(20) as u8).collect()
}

/// A pair with this wrong, one atom of which is in no earlier pair.
fn bad_pair(random: &mut Random, atoms: usize, earlier: &[Pair], fault: Fault) -> Pair {
    let free: Vec<u8> = (0..atoms as u8).filter(|atom| !earlier.as_flattened().contains(atom)).collect();
    let mut pair = [random.pick(&free); 2];
    match fault {
        Fault::TooLarge(here) => pair[here] = random.pick(&[atoms as u8, atoms as u8 + 1, 16, 128, 255]),
        Fault::Earlier(there, here) => pair[here] = random.pick(earlier)[there],
        _ => (),
    }
    pair
}
