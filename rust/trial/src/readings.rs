//! Wrong readings of pairs: random sheets have to show each.

use crate::solver::guess::{of_pairs, Guess, Objective};
use crate::solver::listing::Program;
use crate::solver::ruling::{closure, is_contradicted};
use crate::solver::sheet::Pair;
use crate::solver::{has, meet, Set};

/// What is said of a guess: its belief sets, and whether it is contradicted.
pub type Said = (Vec<Set>, bool);

/// What is said of a guess of a program whose pairs these are, at least one.
pub type Reading = fn(&Program, &[Pair], Guess) -> Said;

pub const WRONG: [(&str, Reading); 8] = [
    ("pairs passed over", |p, _, guess| said(&with(p, vec![]), guess)),
    ("pairs passed over in the sets", |p, _, guess| (with(p, vec![]).belief_sets(guess), p.is_contradicted(guess))),
    ("pairs passed over in ruling out", |p, _, guess| (p.belief_sets(guess), with(p, vec![]).is_contradicted(guess))),
    ("the first pair alone", |p, pairs, guess| said(&with(p, of_pairs(&pairs[..1])), guess)),
    ("the last pair alone", |p, pairs, guess| said(&with(p, of_pairs(&pairs[pairs.len() - 1..])), guess)),
    ("one atom of each pair", |p, pairs, guess| {
        let neither = of_pairs(pairs).into_iter().map(|both| Objective { not: both.plain, ..Objective::default() });
        said(&with(p, neither.chain(of_pairs(pairs)).collect()), guess)
    }),
    ("contradicted where one atom of a pair is in T", |p, pairs, guess| {
        let t = closure(&p.program_of(guess), p.atoms).t;
        let has_one = of_pairs(pairs).iter().any(|both| meet(both.plain, t));
        (p.belief_sets(guess), p.is_contradicted(guess) || has_one)
    }),
    ("the opposite of an atom in T enters F", |p, pairs, guess| (p.belief_sets(guess), extended(p, pairs, guess))),
];

/// The right reading: the pairs are constraints of the program.
pub fn said(program: &Program, guess: Guess) -> Said {
    (program.belief_sets(guess), program.is_contradicted(guess))
}

/// The program with these constraints alone.
fn with(program: &Program, constraints: Vec<Objective>) -> Program {
    Program { constraints, ..program.clone() }
}

/// Whether a guess is contradicted when the opposite of an atom in T enters F: no rule has it in its head any more.
fn extended(program: &Program, pairs: &[Pair], guess: Guess) -> bool {
    let mut rules = program.program_of(guess);
    loop {
        let t = closure(&rules, program.atoms).t;
        let opposite = |atom: u8, other: u8| Set::from(has(t, atom.into())) << other;
        let gone = pairs.iter().fold(0, |gone, &[one, other]| gone | opposite(one, other) | opposite(other, one));
        if !rules.iter().any(|rule| meet(rule.head, gone)) {
            return is_contradicted(&rules, program.atoms, &program.negations, guess);
        }
        rules.iter_mut().for_each(|rule| rule.head &= !gone);
    }
}
