//! What the proved listing rests on, in its plainest form, and wrong ways to do it: no set is struck but by the masks and
//! by rules that are always on, no words share, and all subsets are tried. Sets of atoms are walked outside and guesses
//! inside, 64 a word: for each set the guesses for which it is stable are found at once, and a table keeps what the stable
//! sets of each guess have so far, in all and in some.

use crate::growth::proper_subsets;
use crate::solver::guess::{guess_of, Guess, Negation};
use crate::solver::listing::{properly_within, Program};
use crate::solver::sheet::Rule;
use crate::solver::{has, meet, members, within, Set};
use crate::write::{HEAD, K, M, NOT, NOT_K, NOT_M, NOT_NOT, PLAIN};
use std::cmp::Reverse;

/// Wrong ways to judge 64 guesses at once.
#[derive(Clone, Copy, Debug, PartialEq, Eq)]
pub enum Wrong {
    LackingStays,
    HoldingIsVerified,
    OwnNeedsLeftOut,
    BarredByNotK,
    OnForSomeIsOnForAll,
    KnownNotPlain,
    HeadOutsidePassedOver,
    EmptySetNotTried,
    SmallerForSomeIsSmallerForAll,
    EmptySetLeftOut,
    WholeSetLeftOut,
    LastLaneLeftOut,
    LaterWordsLeftOut,
    LeavesInEveryWord,
    MasksPassedOver,
    FailsForSomeStrikesAll,
    SupportOfOneHeadAlone,
    FirstWordServesAll,
    FirstHeadAtomAlone,
}

pub const WRONG: [(&str, Wrong); 19] = [
    ("a guess that lacks what a set needs stays in", Wrong::LackingStays),
    ("a guess that has what each set needs is verified", Wrong::HoldingIsVerified),
    ("what the set itself needs left out", Wrong::OwnNeedsLeftOut),
    ("rules barred by not K instead of K", Wrong::BarredByNotK),
    ("a rule that is on for some guess is on for all", Wrong::OnForSomeIsOnForAll),
    ("K a not asked of a smaller set", Wrong::KnownNotPlain),
    ("a head outside the set passed over", Wrong::HeadOutsidePassedOver),
    ("the empty set not tried as a smaller one", Wrong::EmptySetNotTried),
    ("a smaller set for some guess is one for all", Wrong::SmallerForSomeIsSmallerForAll),
    ("the empty set left out", Wrong::EmptySetLeftOut),
    ("the set of all atoms left out", Wrong::WholeSetLeftOut),
    ("the last guess of a word left out", Wrong::LastLaneLeftOut),
    ("words after the first left out", Wrong::LaterWordsLeftOut),
    ("a guess leaves in every word", Wrong::LeavesInEveryWord),
    ("masks passed over", Wrong::MasksPassedOver),
    ("a rule that fails for some guess strikes the set for all", Wrong::FailsForSomeStrikesAll),
    ("an atom not supported by a rule with a head atom outside the set", Wrong::SupportOfOneHeadAlone),
    ("the first word serves all words", Wrong::FirstWordServesAll),
    ("of a head only the first atom tried in a smaller set", Wrong::FirstHeadAtomAlone),
];

/// Where the six counts stand.
pub const VIEWS: usize = 0;
pub const COVERED: usize = 1;
pub const RULED: usize = 2;
pub const TESTED: usize = 3;
pub const EMPTY: usize = 4;
pub const OTHER: usize = 5;

/// The six counts and the records.
pub type Listed = ([u16; 6], Vec<[u16; 4]>);

/// What is listed: the rules and pairs of a sheet, day masks, and for each guess whether it is contradicted.
pub struct Large {
    pub program: Program,
    pub masks: [Set; 2],
    pub ruled: Vec<bool>,
}

impl Large {
    pub fn new(program: Program, masks: [Set; 2]) -> Self {
        let under = program.clone().under(masks);
        let ruled = (0..1 << program.negations.len()).map(|guess| under.is_contradicted(guess)).collect();
        Large { program, masks, ruled }
    }

    /// The listing, by the right way or by a wrong one.
    pub fn listed(&self, wrong: Option<Wrong>) -> Listed {
        let mut table = Table::new(self, wrong);
        table.fill();
        table.walk()
    }
}

/// A rule: its head, what it asks of a set and of a smaller one, and the negations that a guess must lack and must have
/// for its subjective literals to hold.
#[derive(Clone, Copy)]
struct Digest {
    /// The head on the sheet, and within the set.
    sheet_head: Set,
    head: Set,
    has: Set,
    lacks: Set,
    plain: Set,
    barring: Guess,
    asked: Guess,
}

/// What the stable sets of a guess have so far, in all and in some, and how many they are.
#[derive(Clone, Copy)]
struct Entry {
    known: Set,
    possible: Set,
    sets: u16,
}

struct Table<'a> {
    large: &'a Large,
    wrong: Option<Wrong>,
    rules: Vec<Digest>,
    /// Guesses not ruled that have what each of their sets so far needs.
    active: Vec<u64>,
    entries: Vec<Entry>,
}

impl<'a> Table<'a> {
    fn new(large: &'a Large, wrong: Option<Wrong>) -> Self {
        let guesses = large.ruled.len();
        let mut active = vec![0; guesses.div_ceil(64)];
        for guess in (0..guesses).filter(|&guess| !large.ruled[guess]) {
            active[guess / 64] |= 1 << (guess % 64);
        }
        let entries = vec![Entry { known: !0, possible: 0, sets: 0 }; guesses];
        let mut table = Table { large, wrong, rules: vec![], active, entries };
        let constraints = large.program.constraints.iter();
        let constraints = constraints.map(|rule| [rule.head, rule.plain, rule.not, rule.not_not, 0, 0, 0, 0]);
        table.rules = large.program.rules.iter().copied().chain(constraints).map(|rule| table.digest(&rule)).collect();
        table
    }

    fn is(&self, wrong: Wrong) -> bool {
        self.wrong == Some(wrong)
    }

    /// The guess of all "not K" of some atoms and all M of others, as far as they are on the sheet.
    fn guess(&self, not_known: Set, possible: Set) -> Guess {
        guess_of(&self.large.program.negations, |negation| match negation {
            Negation::NotKnown(atom) => has(not_known, atom),
            Negation::Possible(atom) => has(possible, atom),
        })
    }

    fn digest(&self, rule: &Rule) -> Digest {
        let [known, not_known] = if self.is(Wrong::BarredByNotK) { [NOT_K, K] } else { [K, NOT_K] };
        Digest {
            sheet_head: rule[HEAD],
            head: rule[HEAD],
            has: rule[PLAIN] | rule[NOT_NOT],
            lacks: rule[NOT],
            plain: if self.is(Wrong::KnownNotPlain) { rule[PLAIN] } else { rule[PLAIN] | rule[K] },
            barring: self.guess(rule[known], rule[NOT_M]),
            asked: self.guess(rule[not_known], rule[M]),
        }
    }

    /// Each set of atoms that fits the masks, for all guesses.
    fn fill(&mut self) {
        let sets = 1u32 << self.large.program.atoms;
        let first = u32::from(self.is(Wrong::EmptySetLeftOut));
        let end = sets - u32::from(self.is(Wrong::WholeSetLeftOut));
        let [ins, outs] = if self.is(Wrong::MasksPassedOver) { [0, 0] } else { self.large.masks };
        for set in (first..end).map(|set| set as Set) {
            if within(ins, set) && !meet(outs, set) {
                self.set(set);
            }
        }
    }

    /// Judges a set for all guesses: a guess acts on it as if it had what the set needs, too.
    fn set(&mut self, set: Set) {
        let need = self.guess(!set, set);
        let by = if self.is(Wrong::OwnNeedsLeftOut) { 0 } else { need };
        let holds = |rule: &&Digest| within(rule.has, set) && !meet(rule.lacks, set) && !meet(rule.barring, by);
        let at_set = |rule: &Digest| Digest { head: rule.head & set, asked: rule.asked & !by, ..*rule };
        let rules: Vec<Digest> = self.rules.iter().filter(holds).map(at_set).collect();
        let fails = |rule: &Digest| {
            rule.head == 0 && (rule.barring | rule.asked == 0 || self.is(Wrong::FailsForSomeStrikesAll))
        };
        if rules.iter().any(fails) && !self.is(Wrong::HeadOutsidePassedOver) {
            return;
        }
        let words = if self.is(Wrong::LaterWordsLeftOut) { 1 } else { self.active.len() };
        for word in (0..words).filter(|&word| self.active[word] != 0).collect::<Vec<_>>() {
            let from = if self.is(Wrong::FirstWordServesAll) { 0 } else { word };
            let stable = self.stable(&rules, set, word, from);
            self.note(set, need, word, stable);
        }
    }

    /// The active guesses of a word for which a set is stable, by the rules that hold in it, each on in the lanes
    /// in which it is on in word `from`.
    fn stable(&self, rules: &[Digest], set: Set, word: usize, from: usize) -> u64 {
        let last = 1 << (63.min(self.entries.len() - 1));
        let lanes = self.active[word] & if self.is(Wrong::LastLaneLeftOut) { !last } else { !0 };
        let for_all = |on: u64| if on != 0 && self.is(Wrong::OnForSomeIsOnForAll) { lanes } else { on };
        let on: Vec<u64> = rules.iter().map(|rule| for_all(lanes & cube(rule.barring, rule.asked, from))).collect();
        let outside = rules.iter().zip(&on).filter(|(rule, _)| rule.head == 0).fold(0, |lanes, (_, on)| lanes | on);
        let models = if self.is(Wrong::HeadOutsidePassedOver) { lanes } else { lanes & !outside };
        match self.wrong {
            Some(Wrong::SupportOfOneHeadAlone) => {
                let supported = members(set).map(|atom| self.support(rules, &on, atom));
                supported.fold(models, |lanes, by| lanes & by) & !self.smaller(rules, &on, set, models)
            }
            Some(Wrong::FirstHeadAtomAlone) => models & !first_atoms(rules, &on, set, 0, models),
            _ => models & !self.smaller(rules, &on, set, models),
        }
    }

    /// The guesses for which a rule is on that has an atom as its head on the sheet, and not in its body.
    fn support(&self, rules: &[Digest], on: &[u64], atom: usize) -> u64 {
        let supports = |rule: &Digest| rule.sheet_head == 1 << atom && !has(rule.plain, atom);
        rules.iter().zip(on).filter(|(rule, _)| supports(rule)).fold(0, |lanes, (_, on)| lanes | on)
    }

    /// Those of these guesses for which some proper subset is a model of the rules that are on.
    fn smaller(&self, rules: &[Digest], on: &[u64], set: Set, lanes: u64) -> u64 {
        let mut left = lanes;
        for smaller in proper_subsets(set) {
            if left == 0 {
                break;
            }
            let fails = |rule: &Digest| within(rule.plain, smaller) && !meet(rule.head, smaller);
            let mut failing = rules.iter().zip(on).filter(|(rule, _)| fails(rule));
            let models =
                failing.try_fold(left, |left, (_, on)| Some(left & !on).filter(|&left| left != 0)).unwrap_or(0);
            if models != 0 && self.is(Wrong::SmallerForSomeIsSmallerForAll) {
                return lanes;
            }
            if smaller != 0 || !self.is(Wrong::EmptySetNotTried) {
                left &= !models;
            }
        }
        lanes & !left
    }

    /// A set is stable for these guesses of a word: those that lack what it needs leave, the others take it in.
    fn note(&mut self, set: Set, need: Guess, word: usize, stable: u64) {
        let holding = stable & cube(0, need, word);
        let leaving = stable & !holding;
        if self.is(Wrong::LeavesInEveryWord) {
            self.active.iter_mut().for_each(|active| *active &= !leaving);
        } else if !self.is(Wrong::LackingStays) {
            self.active[word] &= !leaving;
        }
        for lane in (0..64).filter(|lane| holding >> lane & 1 == 1) {
            let entry = &mut self.entries[64 * word + lane];
            entry.known &= set;
            entry.possible |= set;
            entry.sets += 1;
        }
    }

    /// The guesses in their order: larger sizes first, then by number.
    fn walk(&self) -> Listed {
        let mut order: Vec<usize> = (0..self.entries.len()).collect();
        order.sort_by_key(|guess| (Reverse(guess.count_ones()), *guess));
        let (mut counts, mut records) = ([0; 6], vec![]);
        for guess in order {
            let place = self.place(guess, &records);
            counts[place] += 1;
            counts[TESTED] += u16::from(![COVERED, RULED].contains(&place));
            if place == VIEWS {
                let Entry { known, possible, sets } = self.entries[guess];
                records.push([guess as Guess, known, possible, sets]);
            }
        }
        (counts, records)
    }

    /// The count that a guess belongs to, apart from that of the tested ones.
    fn place(&self, guess: usize, records: &[[u16; 4]]) -> usize {
        let Entry { known, possible, sets } = self.entries[guess];
        let is_covered = records.iter().any(|record| properly_within(guess as Guess, record[0]));
        let is_active = self.active[guess / 64] >> (guess % 64) & 1 == 1;
        let is_found = self.guess(!known, possible) == guess as Guess || self.is(Wrong::HoldingIsVerified);
        match (self.large.ruled[guess], is_active, sets) {
            _ if is_covered => COVERED,
            (true, ..) => RULED,
            (_, false, _) => OTHER,
            (_, _, 0) => EMPTY,
            _ if is_found => VIEWS,
            _ => OTHER,
        }
    }
}

/// Of these guesses those for which a smaller set is found, from a set on, where each rule that fails adds the first atom of
/// its head.
fn first_atoms(rules: &[Digest], on: &[u64], set: Set, smaller: Set, lanes: u64) -> u64 {
    if smaller == set || lanes == 0 {
        return 0;
    }
    let fails = |rule: &Digest| within(rule.plain, smaller) && !meet(rule.head, smaller);
    let (mut left, mut found) = (lanes, 0);
    for (rule, lanes) in rules.iter().zip(on).filter(|(rule, _)| fails(rule)) {
        let first = rule.head & rule.head.wrapping_neg();
        found |= if first == 0 { 0 } else { first_atoms(rules, on, set, smaller | first, left & lanes) };
        left &= !lanes;
    }
    found | left
}

/// The guesses of a word, as lanes, that have none of some negations and all of others.
fn cube(none: Guess, all: Guess, word: usize) -> u64 {
    let having = |negation: usize| match negation {
        0..6 => HAVING[negation],
        _ if has(word as Guess, negation - 6) => !0,
        _ => 0,
    };
    let lanes = members(none).fold(!0, |lanes, negation| lanes & !having(negation));
    members(all).fold(lanes, |lanes, negation| lanes & having(negation))
}

/// Of the numbers below 64, those with bit 0, with bit 1, and so on.
const HAVING: [u64; 6] = [
    0xAAAA_AAAA_AAAA_AAAA,
    0xCCCC_CCCC_CCCC_CCCC,
    0xF0F0_F0F0_F0F0_F0F0,
    0xFF00_FF00_FF00_FF00,
    0xFFFF_0000_FFFF_0000,
    0xFFFF_FFFF_0000_0000,
];
