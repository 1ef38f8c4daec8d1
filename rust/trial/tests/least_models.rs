//! The stability of a set of atoms, which K6 of document 02 has judged by growing: sets by hand, and random sheets that
//! have to show each kind of set and each wrong way to judge one. The proved calls against the second solver.

use budkarv::{Atoms, Day, Listing, WorldView};
use std::ops::Range;
use trial::growth::Applied;
use trial::heads::{sheet_of_parts, Family};
use trial::masks::random_masks;
use trial::programs::lines_of;
use trial::random::{seed, Random};
use trial::request::*;
use trial::solver::calls::{open_under, Opened};
use trial::solver::listing::Program;
use trial::solver::refusal::Refusal;
use trial::solver::sheet::{read, Rule};
use trial::solver::{meet, within};
use trial::text::good;
use trial::ways::{KINDS, KINDS_OF_SEVERAL, WRONG, WRONG_ON_SEVERAL};
use trial::write::{hex, lettered, rule, HEAD, PLAIN};

/// A sheet and day masks, which are accepted.
struct Case {
    sheet: Vec<u8>,
    masks: [u16; 2],
    opened: Result<Opened, Refusal>,
    /// The rules and pairs of the sheet, without the constraints of the day.
    program: Program,
}

impl Case {
    fn new(sheet: &[u8], masks: [u16; 2]) -> Case {
        let program = Program::of(&read(sheet).expect("an accepted sheet"));
        Case { sheet: sheet.to_vec(), masks, opened: open_under(sheet, masks), program }
    }

    fn opened(&self) -> &Opened {
        self.opened.as_ref().expect("an accepted sheet and masks")
    }

    fn guesses(&self) -> Range<u16> {
        0..1 << self.program.negations.len()
    }

    /// Both calls on each guess, the list, and the query for an atom, with a few cells more than are filled.
    fn requests(&self, random: &mut Random) -> Vec<Request> {
        let (opened, atom) = (self.opened(), random.below(self.program.atoms));
        let mut request = |call, argument: usize, filled: usize| Request {
            call,
            sheet: self.sheet.clone(),
            argument: argument as u32,
            masks: self.masks,
            cells: (filled + random.below(3)) as u16,
            first: 50_000,
            ..Request::default()
        };
        let mut requests = vec![request(LIST, 0, 4 * opened.listing().views.len()), request(QUERY, atom, 0)];
        for guess in self.guesses() {
            requests.push(request(VERDICT, guess.into(), 0));
            requests.push(request(BELIEF_SETS, guess.into(), opened.sets_of(guess).len()));
        }
        requests
    }

    /// The archive's listing: the six counts and the records.
    fn listed(&self) -> ([u16; 6], Vec<[u16; 4]>) {
        let [in_atoms, out_atoms] = self.masks.map(Atoms::from_bits);
        let listing = budkarv::list_on(&self.sheet, Day { in_atoms, out_atoms });
        let Listing { counts: c, views } = listing.expect("an accepted sheet and masks");
        let words = |view: &WorldView| [view.guess, view.known.bits(), view.possible.bits(), view.sets];
        ([c.views, c.covered, c.ruled, c.tested, c.empty, c.other], views.iter().map(words).collect())
    }

    fn shown(&self) -> String {
        format!("seed {}, sheet {}, masks {:?}", seed(), hex(&self.sheet), self.masks)
    }
}

/// Compares every answer of the program `calls` and of the archive.
fn compare(cases: &[Case], random: &mut Random) {
    let requests: Vec<Vec<Request>> = cases.iter().map(|case| case.requests(random)).collect();
    let mut lines = lines_of(&requests.concat()).into_iter();
    for (case, requests) in cases.iter().zip(requests) {
        for request in requests {
            let owed = request.line_on(&case.opened).to_string();
            assert_eq!(lines.next(), Some(owed), "call {}, {}; {}", request.call, request.argument, case.shown());
        }
        let listing = case.opened().listing();
        let owed = (listing.counts, listing.views.iter().map(|view| view.words()).collect());
        assert_eq!(case.listed(), owed, "{}", case.shown());
    }
}

/// A sheet, the atoms that are in and out, and the belief sets of each guess, `-` being the empty one.
type Row = (&'static str, [&'static str; 2], &'static [&'static str]);

const NONE: [&str; 2] = ["", ""];

/// By hand, from "a model of the reduct of which no proper subset is one".
const BY_HAND: [Row; 44] = [
    // Rings: a set is grown from outside or not at all.
    ("a b c: a <- b; b <- c; c <- a", NONE, &["-"]),
    ("a b c: a <- b; b <- c; c <- a; c", NONE, &["abc"]),
    ("a b c d: d; a <- b; b <- c; c <- a", NONE, &["d"]),
    ("a b c: a <- not not a; b <- a; b <- c; c <- b", NONE, &["- abc"]),
    ("a b c d: a <- not b; b <- not a; c <- a; c <- d; d <- c", NONE, &["b acd"]),
    ("a b c d: a <- b; b <- a; c <- d; d <- c; a <- c; c <- b", NONE, &["-"]),
    // Chains against the order of the rules; all plain atoms of a rule are asked for.
    ("a b c d e: e <- d; d <- c; c <- b; b <- a; a", NONE, &["abcde"]),
    ("a b c d: d <- a, b, c; c <- a, b; b <- a; a", NONE, &["abcd"]),
    ("a b c: c <- a, b; a; b <- c", NONE, &["a"]),
    // "not" and "not not" are asked of the set and not of what is grown.
    ("a b: a <- not b; b", NONE, &["b"]),
    ("a b: a <- not not b; b <- not not a", NONE, &["- ab"]),
    ("a b c: a <- b; b <- a; a <- not not c; c <- not not c", NONE, &["- abc"]),
    ("a b c: a <- not b; b <- not c; c <- not a", NONE, &[""]),
    // Constraints, and heads outside the set.
    ("a b: a <- not not a; b <- a; <- b", NONE, &["-"]),
    ("a b c: a <- not not a; b <- a; c <- b; <- not c", NONE, &["abc"]),
    ("a b c: a; b | c <- a; <- b", NONE, &["ac"]),
    // Head cycles: nothing grows, and no smaller set is a model.
    ("a b: a | b; a <- b; b <- a", NONE, &["ab"]),
    ("a b c: a | b | c; a <- b; b <- c; c <- a", NONE, &["abc"]),
    ("a b c: b | c; b <- c; c <- b", NONE, &["bc"]),
    ("a b: a | b <- not not a; a <- b; b <- a", NONE, &["- ab"]),
    ("a b: a | b <- not a; a <- b; b <- a", NONE, &[""]),
    ("a b: a | b <- not a", NONE, &["b"]),
    ("a b c: a | b <- not c; c <- not not c", NONE, &["a b c"]),
    // Two head atoms in the set: both from other rules, one of them, none.
    ("a b c: a | b; c; a <- c; b <- c", NONE, &["abc"]),
    ("a b: a | b; b", NONE, &["b"]),
    ("a b c: a | b; c <- a, b; a <- c; b <- c", NONE, &["a b"]),
    ("a b c d: d; a | b <- d; c <- a; c <- b; a <- c; b <- c", NONE, &["abcd"]),
    ("a b c d: d; a | b <- d; c <- a, b; a <- c; b <- c", NONE, &["ad bd"]),
    // e from all ways to have one of a, b and one of c, d; and from all but b, d.
    (
        "a b c d e: a | b; c | d; e <- a, c; e <- a, d; e <- b, c; e <- b, d; a <- e; b <- e; c <- e; d <- e",
        NONE,
        &["abcde"],
    ),
    ("a b c d e: a | b; c | d; e <- a, c; e <- a, d; e <- b, c; a <- e; b <- e; c <- e; d <- e", NONE, &["bd"]),
    // Pairs: what is grown whole may have one.
    ("a b: a <- not not a; b <- a; a <> b", NONE, &["-"]),
    ("a b c d: a <- not b; b <- not a; c <- a; c <- d; d <- c; a <> d", NONE, &["b"]),
    ("a b c: a | b; c <- a; c <- b; b <> c", NONE, &["ac"]),
    ("a b c: a | b; b | c; a <> c", NONE, &["b"]),
    ("a b c: a | b; a <- b; b <- a; c <- not not c; a <> b", NONE, &[""]),
    ("a b c: a <- not not a; b <- not not b; c <- a; b <> c", ["b", ""], &["b"]),
    // An in-atom is not grown from, and the smaller models need not have it.
    ("a b: a <- b; b <- a", ["a", ""], &[""]),
    ("a b c: a | b; c <- a, b; a <- c; b <- c", ["c", ""], &[""]),
    ("a b c: a | b; a <- b; b <- a; c <- not not c", ["c", ""], &["abc"]),
    ("a b c d: a <- not b; b <- not a; c <- a; c <- d; d <- c", ["", "b"], &["acd"]),
    ("a b c d: a <- not b; b <- not a; c <- a; c <- d; d <- c", ["bc", ""], &[""]),
    // K a: as plain, or its rule goes. M a: as "not not", or it goes. "not K a": as "not", or it goes.
    ("a b: a | b; a <- b; b <- K a", NONE, &["ab", "a"]),
    ("a b: a <- b; b <- a; a <- M b", NONE, &["- ab", "ab"]),
    ("a b c: a <- b; b <- a; a <- not K c; c <- not not c", NONE, &["ab c", "ab abc"]),
];

/// Letters as a set of atoms: a is atom 0.
fn set(letters: &str) -> u16 {
    letters.bytes().filter(|&letter| letter != b'-').map(|letter| 1 << (letter - b'a')).sum()
}

#[test]
fn sets_by_hand() {
    let mut random = Random::new(seed(), 140);
    let mut cases = Vec::new();
    for (text, masks, sets) in BY_HAND {
        let case = Case::new(&good(text), masks.map(set));
        assert_eq!(case.guesses().len(), sets.len(), "{text}");
        for (guess, sets) in case.guesses().zip(sets) {
            let sets: Vec<u16> = sets.split_whitespace().map(set).collect();
            assert_eq!(case.opened().sets_of(guess), sets, "guess {guess}, masks {masks:?}, {text}");
        }
        cases.push(case);
    }
    compare(&cases, &mut random);
}

/// Each of fifteen atoms but the last from the next one, the first atom's rule first; and the last from the first.
fn chain_and_back() -> (Vec<Rule>, Rule) {
    let from = |head: usize, plain: usize| rule(&[(HEAD, 1 << head), (PLAIN, 1 << plain)]);
    ((0..14).map(|atom| from(atom, atom + 1)).collect(), from(14, 0))
}

/// Sheets of fifteen atoms and their belief sets, by hand.
#[test]
fn fifteen_atoms() {
    const ALL: u16 = 0x7FFF;
    let (chain, back) = chain_and_back();
    let with = |more: &[Rule]| [&chain[..], more].concat();
    let fact = |head| rule(&[(HEAD, head)]);
    let pairs = |more: &[Rule]| {
        let from_last = (0..14).map(|atom| rule(&[(HEAD, 1 << atom), (PLAIN, 1 << 14)]));
        (0..7).map(|pair| fact(3 << (2 * pair))).chain(from_last).chain(more.iter().copied()).collect()
    };
    let last_from = |plain| rule(&[(HEAD, 1 << 14), (PLAIN, plain)]);
    let both: Vec<Rule> = (0..7).map(|pair| last_from(3 << (2 * pair))).collect();
    let one_of_each = (0..1 << 14).filter(|set| (0..7).all(|pair| [1, 2].contains(&(set >> (2 * pair) & 3))));
    let sheets: [(Vec<Rule>, Vec<u16>); 6] = [
        (with(&[back]), vec![0]),
        (with(&[fact(1 << 14)]), vec![ALL]),
        (with(&[back, fact(1 << 7)]), vec![ALL]),
        (with(&[back, fact(ALL)]), vec![ALL]),
        (pairs(&both), one_of_each.collect()),
        (pairs(&[last_from(1), last_from(2)]), vec![ALL]),
    ];
    let cases: Vec<Case> = sheets.iter().map(|(rules, _)| Case::new(&lettered(15, rules), [0, 0])).collect();
    for (case, (_, sets)) in cases.iter().zip(sheets) {
        assert_eq!(case.opened().sets_of(0), sets, "{}", case.shown());
    }
    compare(&cases, &mut Random::new(seed(), 141));
}

/// What was met: of the sets that fit the masks, how often each kind came and each wrong way was wrong; how often a belief
/// set was lost by an in-atom and by an out-atom, and a guess had other belief sets than the one before it.
#[derive(Default)]
struct Met {
    kinds: [usize; KINDS.len()],
    kinds_of_several: [usize; KINDS_OF_SEVERAL.len()],
    wrong: [usize; WRONG.len()],
    wrong_on_several: [usize; WRONG_ON_SEVERAL.len()],
    lost: [usize; 2],
    other: usize,
}

impl Met {
    fn case(&mut self, case: &Case) {
        let sets: Vec<Vec<u16>> = case.guesses().map(|guess| case.opened().sets_of(guess)).collect();
        self.other += sets.windows(2).filter(|two| two[0] != two[1]).count();
        for (guess, sets) in case.guesses().zip(sets) {
            let program = case.program.program_of(guess);
            for set in 0..1 << case.program.atoms {
                let applied = Applied::new(&program, set);
                let place = || format!("guess {guess}, set {set}, {}", case.shown());
                assert_eq!(applied.judged(applied.grown), applied.is_stable(), "{}", place());
                assert_eq!(self.set(&applied, case.masks), sets.contains(&set), "{}", place());
            }
        }
    }

    /// Whether a set is stable and fits the masks.
    fn set(&mut self, a: &Applied, [ins, outs]: [u16; 2]) -> bool {
        let (stable, lacks, has) = (a.is_stable(), !within(ins, a.set), meet(outs, a.set));
        if lacks || has {
            self.lost[0] += usize::from(stable && lacks);
            self.lost[1] += usize::from(stable && has);
            return false;
        }
        let kinds = self.kinds.iter_mut().zip(KINDS);
        let of_several = self.kinds_of_several.iter_mut().zip(KINDS_OF_SEVERAL);
        kinds.chain(of_several).for_each(|(count, (_, is))| *count += usize::from(is(a)));
        let ways = self.wrong.iter_mut().zip(WRONG);
        let on_several = self.wrong_on_several.iter_mut().zip(WRONG_ON_SEVERAL);
        ways.chain(on_several).for_each(|(count, (_, says))| *count += usize::from(says(a, ins) != stable));
        stable
    }

    /// The counts by name: those of any sheets, and those of sheets with several head atoms in a rule.
    fn named(&self) -> [Vec<(&'static str, usize)>; 2] {
        let lost = ["lost by an in-atom", "lost by an out-atom"].into_iter().zip(self.lost).collect();
        let any = [named(&KINDS, &self.kinds), named(&WRONG, &self.wrong), lost, vec![("another guess", self.other)]];
        let kinds = named(&KINDS_OF_SEVERAL, &self.kinds_of_several);
        [any.concat(), [kinds, named(&WRONG_ON_SEVERAL, &self.wrong_on_several)].concat()]
    }
}

fn named<T>(table: &[(&'static str, T)], counts: &[usize]) -> Vec<(&'static str, usize)> {
    table.iter().zip(counts).map(|(&(name, _), &count)| (name, count)).collect()
}

/// Compares the answers on random sheets of a family, each without masks and under some, and says what was met.
fn run(family: Family, stream: u64) -> [Vec<(&'static str, usize)>; 2] {
    let mut random = Random::new(seed(), stream);
    let mut cases = Vec::new();
    for _ in 0..1_500 {
        let sheet = sheet_of_parts(&mut random, family, 3);
        let masks = random_masks(&mut random, sheet[0].into());
        cases.extend([[0, 0], masks].map(|masks| Case::new(&sheet, masks)));
    }
    compare(&cases, &mut random);
    let mut met = Met::default();
    cases.iter().for_each(|case| met.case(case));
    println!("{family:?}, seed {}: {:?}", seed(), met.named());
    met.named()
}

fn each_came(counts: &[(&str, usize)]) {
    let few: Vec<_> = counts.iter().filter(|(_, count)| *count < 10).collect();
    assert!(few.is_empty(), "{few:?}; seed {}", seed());
}

/// With at most one head atom in each rule, growing alone decides.
#[test]
fn single_heads() {
    let [any, of_several] = run(Family::Single, 142);
    each_came(&any);
    assert!(of_several.iter().all(|(_, count)| *count == 0), "{of_several:?}; seed {}", seed());
}

#[test]
fn disjunctions() {
    run(Family::Disjunctive, 143).iter().for_each(|counts| each_came(counts));
}

#[test]
fn mixtures() {
    run(Family::Mixed, 144).iter().for_each(|counts| each_came(counts));
}
