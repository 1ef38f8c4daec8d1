//! What a listing holds.

/// The world views of a sheet in their order, and the six counts.
#[derive(Clone, Debug, PartialEq, Eq)]
pub struct Listing {
    pub counts: Counts,
    pub views: Vec<WorldView>,
}

/// How many guesses are world views, covered, ruled, tested, empty, other.
#[derive(Clone, Copy, Debug, PartialEq, Eq)]
pub struct Counts {
    pub views: u16,
    pub covered: u16,
    pub ruled: u16,
    pub tested: u16,
    pub empty: u16,
    pub other: u16,
}

/// A world view.
#[derive(Clone, Copy, Debug, PartialEq, Eq)]
pub struct WorldView {
    /// The negations that are assumed to hold: bit j for negation j.
    pub guess: u16,
    /// The atoms in every belief set.
    pub known: Atoms,
    /// The atoms in some belief set.
    pub possible: Atoms,
    /// How many belief sets it has.
    pub sets: u16,
}

/// A set of atoms, which are numbered from 0 in the order of their names on the sheet.
#[derive(Clone, Copy, Debug, Default, PartialEq, Eq, Hash)]
pub struct Atoms(u16);

impl Atoms {
    /// The set of a number: atom i for bit i.
    pub fn from_bits(bits: u16) -> Self {
        Atoms(bits)
    }

    /// Whether the atom of this number is in the set.
    pub fn contains(self, atom: usize) -> bool {
        atom < 16 && self.0 >> atom & 1 == 1
    }

    /// The numbers of its atoms, rising.
    pub fn iter(self) -> impl Iterator<Item = usize> {
        (0..16).filter(move |&atom| self.contains(atom))
    }

    /// The set as a number: bit i for atom i.
    pub fn bits(self) -> u16 {
        self.0
    }
}

impl Listing {
    /// From words of two bytes, low byte first: the six counts, and four words a world view.
    pub(crate) fn from_bytes(bytes: &[u8]) -> Self {
        let mut words = bytes.chunks_exact(2).map(|pair| u16::from_le_bytes([pair[0], pair[1]]));
        let mut next = || words.next().expect("as many words as the six counts and the records are");
        let counts =
            Counts { views: next(), covered: next(), ruled: next(), tested: next(), empty: next(), other: next() };
        let mut view = || WorldView { guess: next(), known: Atoms(next()), possible: Atoms(next()), sets: next() };
        let views = (0..counts.views).map(|_| view()).collect();
        Listing { counts, views }
    }
}
