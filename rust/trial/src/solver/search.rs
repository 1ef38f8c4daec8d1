//! Three-valued sets of atoms, and unit propagation over clauses.

use super::{meet, Set};

/// A set that is known in part: atoms in it, and atoms not in it.
#[derive(Clone, Copy, Debug, PartialEq, Eq)]
pub struct Partial {
    pub inside: Set,
    pub outside: Set,
}

impl Partial {
    /// The largest of these atoms that is neither inside nor outside.
    pub fn open(self, atoms: Set) -> Option<Set> {
        let open = atoms & !self.inside & !self.outside;
        (open != 0).then(|| 1 << open.ilog2())
    }

    pub fn with(self, atom: Set) -> Partial {
        Partial { inside: self.inside | atom, ..self }
    }

    pub fn without(self, atom: Set) -> Partial {
        Partial { outside: self.outside | atom, ..self }
    }
}

/// Demands that one of some atoms be inside or one of some others outside.
#[derive(Clone, Copy, Debug)]
pub struct Clause {
    pub inside: Set,
    pub outside: Set,
}

/// What follows from one clause: none where it cannot be met any more.
fn unit(clause: &Clause, p: Partial) -> Option<Partial> {
    if meet(clause.inside, p.inside) || meet(clause.outside, p.outside) {
        return Some(p);
    }
    let inside = clause.inside & !p.outside;
    let outside = clause.outside & !p.inside;
    match inside.count_ones() + outside.count_ones() {
        0 => None,
        1 => Some(p.with(inside).without(outside)),
        _ => Some(p),
    }
}

/// What follows from all clauses together.
pub fn units(clauses: &[Clause], mut p: Partial) -> Option<Partial> {
    loop {
        let before = p;
        for clause in clauses {
            p = unit(clause, p)?;
        }
        if p == before {
            return Some(p);
        }
    }
}

/// Whether some set that extends `p` meets all clauses; only `atoms` are open.
pub fn satisfiable(clauses: &[Clause], atoms: Set, p: Partial) -> bool {
    let Some(p) = units(clauses, p) else { return false };
    match p.open(atoms) {
        None => true,
        Some(atom) => satisfiable(clauses, atoms, p.without(atom)) || satisfiable(clauses, atoms, p.with(atom)),
    }
}
