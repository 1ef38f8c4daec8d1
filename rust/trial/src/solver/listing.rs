//! The verdict on a guess, the world views of a sheet and the six counts.

use super::guess::{guess_of, negations, of_masks, of_pairs, reduct, Guess, Negation, Objective};
use super::ruling::is_contradicted;
use super::sheet::{Rule, Sheet};
use super::stable::stable_sets;
use super::{has, within, Set};
use std::cmp::Ordering;

/// The rules of a sheet with their epistemic negations, and the constraints of its pairs and of the day.
#[derive(Clone, Debug)]
pub struct Program {
    pub atoms: usize,
    pub rules: Vec<Rule>,
    pub negations: Vec<Negation>,
    pub constraints: Vec<Objective>,
}

/// The verdict on a guess.
#[derive(Clone, Copy, Debug, PartialEq, Eq)]
pub enum Verdict {
    Empty,
    Other { found: Guess },
    Verified { known: Set, possible: Set, sets: u16 },
}

/// A world view.
#[derive(Clone, Copy, Debug, PartialEq, Eq)]
pub struct View {
    pub guess: Guess,
    pub known: Set,
    pub possible: Set,
    pub sets: u16,
}

impl View {
    /// The four words of its record.
    pub fn words(self) -> [u16; 4] {
        [self.guess, self.known, self.possible, self.sets]
    }
}

/// How a guess counts in the listing; a tested one by its verdict too.
#[derive(Clone, Copy, Debug, PartialEq, Eq)]
pub enum Counted {
    Covered,
    Ruled,
    Tested(Verdict),
}

/// The world views in order, and how many guesses are views, covered, ruled, tested, empty, other.
#[derive(Clone, Debug, PartialEq, Eq)]
pub struct Listing {
    pub views: Vec<View>,
    pub counts: [u16; 6],
}

impl Program {
    /// The rules and the pairs of a sheet.
    pub fn of(sheet: &Sheet) -> Self {
        let rules = sheet.rules.clone();
        Program { atoms: sheet.names.len(), negations: negations(&rules), rules, constraints: of_pairs(&sheet.pairs) }
    }

    /// With these rules in place of its own, from which the negations are numbered; the constraints stay.
    pub fn with_rules(&self, rules: Vec<Rule>) -> Self {
        Program { negations: negations(&rules), rules, ..self.clone() }
    }

    /// The same under day masks, in and out.
    pub fn under(mut self, masks: [Set; 2]) -> Self {
        self.constraints.extend(of_masks(masks));
        self
    }

    /// The program of a guess: the reduct of the rules, and the constraints as further rules.
    pub fn program_of(&self, guess: Guess) -> Vec<Objective> {
        let mut rules = reduct(&self.rules, &self.negations, guess);
        rules.extend(&self.constraints);
        rules
    }

    /// W: the stable sets of the program of a guess.
    pub fn belief_sets(&self, guess: Guess) -> Vec<Set> {
        stable_sets(&self.program_of(guess), self.atoms)
    }

    pub fn verdict(&self, guess: Guess) -> Verdict {
        self.verdict_by(guess, &self.belief_sets(guess))
    }

    /// The verdict on a guess whose belief sets these are.
    pub fn verdict_by(&self, guess: Guess, sets: &[Set]) -> Verdict {
        let (Some(known), Some(possible)) =
            (sets.iter().copied().reduce(|a, b| a & b), sets.iter().copied().reduce(|a, b| a | b))
        else {
            return Verdict::Empty;
        };
        let found = guess_of(&self.negations, |negation| match negation {
            Negation::NotKnown(atom) => !has(known, atom),
            Negation::Possible(atom) => has(possible, atom),
        });
        if found == guess {
            Verdict::Verified { known, possible, sets: sets.len() as u16 }
        } else {
            Verdict::Other { found }
        }
    }

    pub fn is_contradicted(&self, guess: Guess) -> bool {
        is_contradicted(&self.program_of(guess), self.atoms, &self.negations, guess)
    }

    /// The listing, by judging every guess; at most 15 negations.
    pub fn listing(&self) -> Listing {
        let verdicts = self.verdicts();
        let views = world_views(&verdicts);
        let mut counts = [0; 6];
        for (guess, &verdict) in (0..).zip(&verdicts) {
            for name in names(self.counted_as(guess, verdict, &views)) {
                counts[name as usize] += 1;
            }
        }
        Listing { views, counts }
    }

    /// Every guess in the order of the listing, and how it counts.
    pub fn counted(&self) -> Vec<(Guess, Counted)> {
        let verdicts = self.verdicts();
        let views = world_views(&verdicts);
        let judged = (0..).zip(&verdicts);
        let mut counted: Vec<(Guess, Counted)> =
            judged.map(|(guess, &verdict)| (guess, self.counted_as(guess, verdict, &views))).collect();
        counted.sort_by(|a, b| order(a.0, b.0));
        counted
    }

    /// The verdict on each guess, by rising number.
    fn verdicts(&self) -> Vec<Verdict> {
        (0..1 << self.negations.len()).map(|guess| self.verdict(guess)).collect()
    }

    /// "Each guess counts once."
    fn counted_as(&self, guess: Guess, verdict: Verdict, views: &[View]) -> Counted {
        if views.iter().any(|view| properly_within(guess, view.guess)) {
            return Counted::Covered;
        }
        if self.is_contradicted(guess) {
            assert!(!matches!(verdict, Verdict::Verified { .. }), "guess {guess} is verified and contradicted");
            return Counted::Ruled;
        }
        Counted::Tested(verdict)
    }
}

/// The six counts, in the order of the result.
#[derive(Clone, Copy)]
enum Name {
    Views,
    Covered,
    Ruled,
    Tested,
    Empty,
    Other,
}

/// The names that a guess bears.
fn names(counted: Counted) -> Vec<Name> {
    match counted {
        Counted::Covered => vec![Name::Covered],
        Counted::Ruled => vec![Name::Ruled],
        Counted::Tested(Verdict::Empty) => vec![Name::Tested, Name::Empty],
        Counted::Tested(Verdict::Other { .. }) => vec![Name::Tested, Name::Other],
        Counted::Tested(Verdict::Verified { .. }) => vec![Name::Tested, Name::Views],
    }
}

/// "A world view is a verified guess of which no proper superset is verified"; size falling, then number rising.
fn world_views(verdicts: &[Verdict]) -> Vec<View> {
    let verified: Vec<View> = (0..).zip(verdicts).filter_map(|(guess, &verdict)| view(guess, verdict)).collect();
    let is_maximal = |view: &View| !verified.iter().any(|other| properly_within(view.guess, other.guess));
    let mut views: Vec<View> = verified.iter().copied().filter(is_maximal).collect();
    views.sort_by(|a, b| order(a.guess, b.guess));
    views
}

/// A verified guess with its numbers.
pub fn view(guess: Guess, verdict: Verdict) -> Option<View> {
    match verdict {
        Verdict::Verified { known, possible, sets } => Some(View { guess, known, possible, sets }),
        Verdict::Empty | Verdict::Other { .. } => None,
    }
}

fn order(a: Guess, b: Guess) -> Ordering {
    b.count_ones().cmp(&a.count_ones()).then(a.cmp(&b))
}

pub fn properly_within(guess: Guess, other: Guess) -> bool {
    guess != other && within(guess, other)
}
