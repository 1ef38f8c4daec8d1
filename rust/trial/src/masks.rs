//! Random day masks, in and out: accepted ones, and ones with one thing wrong.

use crate::random::Random;

/// Masks over so many atoms, all of them accepted: of no atom, of few or of most.
pub fn random_masks(random: &mut Random, atoms: usize) -> [u16; 2] {
    let share = random.pick(&[0, 15, 30, 30, 70]);
    let mut masks = [0; 2];
    for atom in 0..atoms {
        if random.chance(share) {
            masks[random.below(2)] |= 1 << atom;
        }
    }
    masks
}

/// What is wrong with day masks: a bit at the number of atoms or above it, in either; an atom, or all, in both.
#[derive(Clone, Copy, Debug, PartialEq, Eq)]
pub enum Fault {
    InAtCount,
    OutAtCount,
    InAbove,
    OutAbove,
    OneInBoth,
    AllInBoth,
}

pub const FAULTS: [Fault; 6] =
    [Fault::InAtCount, Fault::OutAtCount, Fault::InAbove, Fault::OutAbove, Fault::OneInBoth, Fault::AllInBoth];

/// Masks over 1 to 14 atoms with one thing wrong.
pub fn faulty_masks(random: &mut Random, atoms: usize, fault: Fault) -> [u16; 2] {
    let [in_atoms, out_atoms] = random_masks(random, atoms);
    let above = 1 << random.between(atoms + 1, 15);
    let shared = 1 << random.below(atoms);
    match fault {
        Fault::InAtCount => [in_atoms | 1 << atoms, out_atoms],
        Fault::OutAtCount => [in_atoms, out_atoms | 1 << atoms],
        Fault::InAbove => [in_atoms | above, out_atoms],
        Fault::OutAbove => [in_atoms, out_atoms | above],
        Fault::OneInBoth => [in_atoms | shared, out_atoms | shared],
        Fault::AllInBoth => [(1 << atoms) - 1; 2],
    }
}
