//! The stable sets of an objective program, by a branching search.

use super::guess::Objective;
use super::search::{satisfiable, units, Clause, Partial};
use super::{meet, within, Set};

/// All stable sets over so many atoms, by rising number.
pub fn stable_sets(rules: &[Objective], atoms: usize) -> Vec<Set> {
    let all = ((1u32 << atoms) - 1) as Set;
    let clauses = rules.iter().map(clause).collect();
    let search = Search { rules, clauses, all };
    let mut found = Vec::new();
    search.extend(Partial { inside: 0, outside: 0 }, &mut found);
    found.sort_unstable();
    found
}

/// A rule as a clause on the set itself: a set is a model when a head atom is in it or the body fails.
fn clause(rule: &Objective) -> Clause {
    Clause { inside: rule.head | rule.not, outside: rule.plain | rule.not_not }
}

struct Search<'a> {
    rules: &'a [Objective],
    clauses: Vec<Clause>,
    all: Set,
}

impl Search<'_> {
    fn extend(&self, p: Partial, found: &mut Vec<Set>) {
        let Some(p) = self.propagate(p) else { return };
        match p.open(self.all) {
            None if self.is_minimal(p.inside) => found.push(p.inside),
            None => (),
            Some(atom) => {
                self.extend(p.without(atom), found);
                self.extend(p.with(atom), found);
            }
        }
    }

    /// What holds in every stable set that extends `p`.
    fn propagate(&self, mut p: Partial) -> Option<Partial> {
        loop {
            p = units(&self.clauses, p)?;
            let unsupported = self.all & !self.supported(p);
            if meet(unsupported, p.inside) {
                return None;
            }
            if within(unsupported, p.outside) {
                return Some(p);
            }
            p = p.without(unsupported);
        }
    }

    /// Atoms that a rule may still support: an atom of a stable set is the only atom of the set in the head of some
    /// rule whose body holds without that atom among the plain ones, else the set without it were a smaller model.
    fn supported(&self, p: Partial) -> Set {
        let mut atoms = 0;
        for rule in self.rules {
            if meet(rule.plain | rule.not_not, p.outside) || meet(rule.not, p.inside) {
                continue;
            }
            let chosen = rule.head & p.inside;
            let alone = match chosen.count_ones() {
                0 => rule.head,
                1 => chosen,
                _ => 0,
            };
            atoms |= alone & !rule.plain;
        }
        atoms
    }

    /// Whether a model has no smaller model of "the program got by dropping each rule with a "not" or "not not" literal
    /// false in I and then all such literals from the rest".
    fn is_minimal(&self, model: Set) -> bool {
        let kept = self.rules.iter().filter(|rule| !meet(rule.not, model) && within(rule.not_not, model));
        let mut clauses: Vec<Clause> = kept.map(|rule| Clause { inside: rule.head, outside: rule.plain }).collect();
        clauses.push(Clause { inside: 0, outside: model });
        !satisfiable(&clauses, model, Partial { inside: 0, outside: !model })
    }
}
