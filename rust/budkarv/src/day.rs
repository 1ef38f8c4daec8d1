//! What is known before a listing.

use crate::Atoms;

/// The atoms that are known for a day; by default none.
#[derive(Clone, Copy, Debug, Default, PartialEq, Eq)]
pub struct Day {
    /// The atoms that are in: every belief set has them.
    pub in_atoms: Atoms,
    /// The atoms that are out: no belief set has one of them.
    pub out_atoms: Atoms,
}
