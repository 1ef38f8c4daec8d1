//! Large listings, every guess judged at once: random sheets of 12 to 15 atoms on which many guesses are tested. The
//! archive's function, the second solver and the table of all guesses give the same listing; and the sheets have to show
//! each kind of them and each wrong way to judge 64 guesses at once.

mod desk;

use desk::desk_call;
use std::cmp::Reverse;
use trial::broad::broad_sheet;
use trial::hard::{hard, quick};
use trial::masks::random_masks;
use trial::random::{seed, Random};
use trial::solver::calls::{list_code, open_under, Opened};
use trial::solver::guess::{guess_of, Guess, Negation};
use trial::solver::listing::{properly_within, Program, Verdict};
use trial::solver::refusal::Refusal;
use trial::solver::sheet::{read, Rule};
use trial::solver::{has, meet, within, Set};
use trial::table::{Large, Listed, EMPTY, OTHER, TESTED, VIEWS, WRONG};
use trial::write::{hex, HEAD, K, M, NOT_K, NOT_M, NOT_NOT};

/// How many sheets of 12 and 13 atoms there are with no negation, with one, and so on, that have to show the kinds, and
/// that have to show the wrong ways.
const FOR_KINDS: [usize; 13] = [20, 10, 10, 10, 20, 80, 80, 80, 40, 20, 20, 20, 40];
const FOR_WRONG_WAYS: [usize; 13] = [80, 20, 20, 20, 20, 80, 80, 100, 60, 20, 10, 10, 10];

/// How many sheets of 14 and 15 atoms there are, with up to twelve negations and with twelve.
const LARGE: usize = 25;
const FULL: usize = 25;

/// The fewest sheets that show a kind or a wrong way.
const FEWEST: usize = 5;

/// A sheet, day masks, and both opened for the second solver and for the table.
struct Case {
    sheet: Vec<u8>,
    masks: [u16; 2],
    opened: Result<Opened, Refusal>,
    large: Large,
}

impl Case {
    fn new(sheet: Vec<u8>, masks: [u16; 2]) -> Case {
        let program = Program::of(&read(&sheet).expect("an accepted sheet"));
        let opened = open_under(&sheet, masks);
        Case { sheet, masks, opened, large: Large::new(program, masks) }
    }

    /// A sheet of so many atoms and negations, at times under masks.
    fn random(random: &mut Random, atoms: usize, negations: usize) -> Case {
        let sheet = broad_sheet(random, atoms, negations);
        let masks = if random.chance(40) { random_masks(random, atoms) } else { [0, 0] };
        let case = Case::new(sheet, masks);
        assert_eq!(case.opened().check()[2], negations, "{}", case.shown());
        case
    }

    fn opened(&self) -> &Opened {
        self.opened.as_ref().expect("an accepted sheet and masks")
    }

    /// The second solver's listing.
    fn listed(&self) -> Listed {
        let listing = self.opened().listing();
        (listing.counts, listing.views.iter().map(|view| view.words()).collect())
    }

    /// Calls the archive's function on a buffer with a few bytes more than are filled, and compares all of it; and the
    /// table's listing.
    fn compare(&self, random: &mut Random) {
        let salt = random.word() as u8;
        let length = 12 + 8 * self.opened().listing().views.len() + random.below(20);
        let mut ours: Vec<u8> = (0..length).map(|i| (i as u8).wrapping_mul(37) ^ salt).collect();
        let mut theirs = ours.clone();
        let expected = list_code(&self.opened, &mut theirs);
        let code = desk_call(&self.sheet, self.masks, &mut ours);
        assert_eq!(code, expected, "the returned number; {}", self.shown());
        assert_eq!(ours, theirs, "the lent bytes; {}", self.shown());
        assert_eq!(self.large.listed(None), self.listed(), "the table; {}", self.shown());
    }

    fn shown(&self) -> String {
        format!("seed {}, sheet {}, masks {:?}", seed(), hex(&self.sheet), self.masks)
    }
}

/// A guess that is tested, its verdict and its belief sets.
struct Tested {
    guess: Guess,
    verdict: Verdict,
    sets: Vec<Set>,
}

impl Tested {
    fn is_view(&self) -> bool {
        matches!(self.verdict, Verdict::Verified { .. })
    }

    fn is_other(&self) -> bool {
        matches!(self.verdict, Verdict::Other { .. })
    }
}

/// What is judged of a case: its counts, and its tested guesses in their order.
struct Judged<'a> {
    case: &'a Case,
    counts: [u16; 6],
    tested: Vec<Tested>,
}

impl<'a> Judged<'a> {
    fn new(case: &'a Case) -> Self {
        let listing = case.opened().listing();
        let is_covered = |guess| listing.views.iter().any(|view| properly_within(guess, view.guess));
        let is_tested = |&guess: &Guess| !is_covered(guess) && !case.large.ruled[usize::from(guess)];
        let mut guesses: Vec<Guess> = (0..case.large.ruled.len() as Guess).filter(is_tested).collect();
        guesses.sort_by_key(|guess| (Reverse(guess.count_ones()), *guess));
        let tested = guesses.into_iter().map(|guess| {
            let sets = case.opened().sets_of(guess);
            Tested { guess, verdict: case.large.program.verdict_by(guess, &sets), sets }
        });
        Judged { case, counts: listing.counts, tested: tested.collect() }
    }

    fn negations(&self) -> &[Negation] {
        &self.case.large.program.negations
    }

    /// Whether some guesses are views, some are empty and some are other.
    fn has_all(&self) -> bool {
        [VIEWS, EMPTY, OTHER].iter().all(|&count| self.counts[count] > 0)
    }

    /// What a set needs: "not K" of each atom that it lacks, M of each that it has.
    fn need(&self, set: Set) -> Guess {
        guess_of(self.negations(), |negation| match negation {
            Negation::NotKnown(atom) => !has(set, atom),
            Negation::Possible(atom) => has(set, atom),
        })
    }

    /// How many belief sets of a guess need what it lacks.
    fn lacking(&self, tested: &Tested) -> usize {
        tested.sets.iter().filter(|&&set| !within(self.need(set), tested.guess)).count()
    }

    /// Whether some tested guess is "other" and so many of its belief sets need what it lacks.
    fn has_other(&self, lacking: usize) -> bool {
        self.tested.iter().any(|tested| tested.is_other() && self.lacking(tested) == lacking)
    }

    fn has_set(&self, set: Set) -> bool {
        self.tested.iter().any(|tested| tested.sets.contains(&set))
    }

    /// In how many words of 64 guesses there are views.
    fn words(&self) -> usize {
        let mut words: Vec<u16> =
            self.tested.iter().filter(|tested| tested.is_view()).map(|tested| tested.guess / 64).collect();
        words.sort_unstable();
        words.dedup();
        words.len()
    }

    /// Whether a set would be stable for some tested guess but for the masks.
    fn is_masked(&self) -> bool {
        let [ins, outs] = self.case.masks;
        let struck = |set: &Set| !within(ins, *set) || meet(outs, *set);
        let has_struck = |tested: &Tested| self.case.large.program.belief_sets(tested.guess).iter().any(struck);
        ins | outs != 0 && self.tested.iter().take(50).any(has_struck)
    }
}

/// What a sheet is.
type Kind = fn(&Judged) -> bool;

const KINDS: [(&str, Kind); 21] = [
    ("no negations", |j| j.negations().is_empty()),
    ("five negations", |j| j.negations().len() == 5),
    ("six negations", |j| j.negations().len() == 6),
    ("seven negations", |j| j.negations().len() == 7),
    ("twelve negations", |j| j.negations().len() == 12),
    ("over 64 tested", |j| j.counts[TESTED] > 64),
    ("over 1,000 tested", |j| j.counts[TESTED] > 1_000),
    ("views, empty and other", |j| j.has_all()),
    ("over 64 tested, views, empty and other", |j| j.counts[TESTED] > 64 && j.has_all()),
    ("over 1,000 tested, views, empty and other", |j| j.counts[TESTED] > 1_000 && j.has_all()),
    ("the first tested no view, a later one is", |j| j.counts[VIEWS] > 0 && !j.tested[0].is_view()),
    ("all tested empty", |j| j.counts[TESTED] > 0 && j.counts[EMPTY] == j.counts[TESTED]),
    ("several views", |j| j.counts[VIEWS] > 1),
    ("views in several words", |j| j.words() > 1),
    ("a set struck by a mask alone", |j| j.is_masked()),
    ("other by what one set needs", |j| j.has_other(1)),
    ("other, though each set's needs are there", |j| j.has_other(0)),
    ("the empty set is stable", |j| j.has_set(0)),
    ("the set of all atoms is stable", |j| j.has_set((1u32 << j.case.large.program.atoms).wrapping_sub(1) as Set)),
    ("pairs", |j| !j.case.large.program.constraints.is_empty()),
    ("disjunctions", |j| j.case.large.program.rules.iter().any(|rule| rule[HEAD].count_ones() > 1)),
];

/// Which rules a subjective literal stands in: constraints, rules for one atom, choices, disjunctions.
fn position(rule: &Rule) -> usize {
    match rule[HEAD].count_ones() {
        0 => 0,
        1 if rule[HEAD] == rule[NOT_NOT] => 2,
        1 => 1,
        _ => 3,
    }
}

/// What was met: sheets by kind, rules by the position of K, not K, M and not M in them, and sheets that show a wrong way.
#[derive(Default)]
struct Met {
    kinds: [usize; KINDS.len()],
    positions: [[usize; 4]; 4],
    wrong: [usize; WRONG.len()],
}

impl Met {
    fn kinds(&mut self, case: &Case) {
        let judged = Judged::new(case);
        assert_eq!(judged.tested.len(), usize::from(judged.counts[TESTED]), "{}", case.shown());
        self.kinds.iter_mut().zip(KINDS).for_each(|(count, (_, is))| *count += usize::from(is(&judged)));
        for rule in &case.large.program.rules {
            let counts = self.positions[position(rule)].iter_mut().zip([K, NOT_K, M, NOT_M]);
            counts.for_each(|(count, mask)| *count += usize::from(rule[mask] != 0));
        }
    }

    fn wrong(&mut self, case: &Case) {
        let right = case.listed();
        for (count, (_, wrong)) in self.wrong.iter_mut().zip(WRONG) {
            *count += usize::from(case.large.listed(Some(wrong)) != right);
        }
    }
}

fn each_came(names: &[&str], counts: &[usize]) {
    let named: Vec<(&str, usize)> = names.iter().copied().zip(counts.iter().copied()).collect();
    println!("seed {}: {named:?}", seed());
    let few: Vec<_> = named.iter().filter(|(_, count)| *count < FEWEST).collect();
    assert!(few.is_empty(), "{few:?}; seed {}", seed());
}

/// Random sheets of 12 and 13 atoms, so many of each number of negations, on which all answers agree.
fn compared(stream: u64, counts: [usize; 13]) -> impl Iterator<Item = Case> {
    let mut random = Random::new(seed(), stream);
    let negations = counts.into_iter().enumerate().flat_map(|(negations, count)| vec![negations; count]);
    negations.map(move |negations| {
        let atoms = random.between(12, 13);
        let case = Case::random(&mut random, atoms, negations);
        case.compare(&mut random);
        case
    })
}

#[test]
fn kinds_of_sheets() {
    let mut met = Met::default();
    compared(170, FOR_KINDS).for_each(|case| met.kinds(&case));
    each_came(&KINDS.map(|(name, _)| name), &met.kinds);
    let positions = ["in constraints", "in rules for one atom", "in choices", "in disjunctions"];
    let names: Vec<String> = positions
        .iter()
        .flat_map(|place| ["K", "not K", "M", "not M"].map(|literal| format!("{literal} {place}")))
        .collect();
    each_came(&names.iter().map(String::as_str).collect::<Vec<_>>(), met.positions.as_flattened());
}

#[test]
fn wrong_ways() {
    let mut met = Met::default();
    compared(171, FOR_WRONG_WAYS).for_each(|case| met.wrong(&case));
    each_came(&WRONG.map(|(name, _)| name), &met.wrong);
}

/// Sheets of 14 and 15 atoms; on many of them over 1,000 guesses are tested.
#[test]
fn large_sheets() {
    let mut random = Random::new(seed(), 172);
    let mut many = 0;
    for sheet in 0..LARGE + FULL {
        let (atoms, negations) = (random.between(14, 15), if sheet < LARGE { random.below(13) } else { 12 });
        let case = Case::random(&mut random, atoms, negations);
        case.compare(&mut random);
        many += usize::from(case.listed().0[TESTED] > 1_000);
    }
    println!("seed {}: over 1,000 tested on {many} sheets", seed());
    assert!(many >= FEWEST, "{many} sheets; seed {}", seed());
}

/// The quick and the hard sheets of the benchmark.
#[test]
fn named_sheets() {
    let mut random = Random::new(seed(), 173);
    for (_, sheet, masks) in quick().into_iter().chain(hard()) {
        Case::new(sheet, masks).compare(&mut random);
    }
}
