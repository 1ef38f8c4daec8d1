//! Day masks: each way of being turned away; answers of all kinds under them, against the second solver; and what
//! document 02 says of them, on the answers of the proved calls alone.

use budkarv::{Atoms, Day};
use trial::masks::{faulty_masks, random_masks, FAULTS};
use trial::programs::lines_of;
use trial::random::{seed, Random};
use trial::request::*;
use trial::sheets::{random_sheet, Shape};
use trial::solver::calls::{open, open_under};
use trial::solver::listing::{Program, Verdict};
use trial::solver::sheet::read;
use trial::solver::{meet, members, within};
use trial::write::{hex, rule, sheet_with, NOT, PLAIN};

const SMALL: Shape = Shape { atoms: (1, 4), rules: (0, 8), negations: 4, literals: 3 };
const MIDDLE: Shape = Shape { atoms: (3, 7), rules: (3, 16), negations: 5, literals: 4 };
const MANY: Shape = Shape { atoms: (1, 5), rules: (40, 64), negations: 3, literals: 4 };

/// The calls that take day masks.
const CALLS: [u8; 4] = [VERDICT, BELIEF_SETS, LIST, QUERY];

/// A sheet, which is accepted, and day masks.
#[derive(Debug)]
struct Case {
    sheet: Vec<u8>,
    masks: [u16; 2],
}

impl Case {
    fn random(random: &mut Random, masks: impl Fn(&mut Random, usize) -> [u16; 2]) -> Case {
        let shape = random.pick(&[SMALL, SMALL, MIDDLE, MIDDLE, MANY]);
        let sheet = random_sheet(random, &shape);
        Case { masks: masks(random, sheet[0].into()), sheet }
    }

    /// The four calls. Of ten guesses and atoms one is the first that is out of range.
    fn requests(&self, random: &mut Random) -> [Request; 4] {
        let [atoms, _, negations] = open(&self.sheet).expect("an accepted sheet").check();
        let mut below = |end: usize| if random.chance(10) { end } else { random.below(end) };
        let arguments = [below(1 << negations), below(1 << negations), 0, below(atoms)];
        [0, 1, 2, 3].map(|i| Request {
            call: CALLS[i],
            sheet: self.sheet.clone(),
            argument: arguments[i] as u32,
            masks: self.masks,
            cells: random.pick(&[0, 1, 2, 4, 9, 40]),
            first: 50_000,
            ..Request::default()
        })
    }

    /// The verdict on every guess.
    fn verdicts(&self) -> Vec<Request> {
        let [_, _, negations] = open(&self.sheet).expect("an accepted sheet").check();
        let request = |argument| Request {
            call: VERDICT,
            sheet: self.sheet.clone(),
            argument,
            masks: self.masks,
            ..Request::default()
        };
        (0..1 << negations).map(request).collect()
    }

    fn shown(&self) -> String {
        format!("seed {}, sheet {}, masks {:?}", seed(), hex(&self.sheet), self.masks)
    }

    /// The sheet with the constraints written as rules at its end: "for each in-atom a constraint "← not a", for each
    /// out-atom "← a"". None where these are more than 64.
    fn as_rules(&self) -> Option<Vec<u8>> {
        let read = read(&self.sheet).expect("an accepted sheet");
        let [in_atoms, out_atoms] = self.masks;
        let mut rules = read.rules;
        rules.extend(members(in_atoms).map(|atom| rule(&[(NOT, 1 << atom)])));
        rules.extend(members(out_atoms).map(|atom| rule(&[(PLAIN, 1 << atom)])));
        (rules.len() <= 64).then(|| sheet_with(&read.names, &rules, &read.pairs))
    }

    fn day(&self) -> Day {
        let [in_atoms, out_atoms] = self.masks.map(Atoms::from_bits);
        Day { in_atoms, out_atoms }
    }
}

/// Each way of being wrong, at each call, whatever the argument and the cells: 13 and the cells as they were lent.
#[test]
fn turned_away() {
    let mut random = Random::new(seed(), 130);
    for fault in FAULTS {
        let cases: Vec<Case> =
            (0..120).map(|_| Case::random(&mut random, |random, atoms| faulty_masks(random, atoms, fault))).collect();
        let requests: Vec<Request> = cases.iter().flat_map(|case| case.requests(&mut random)).collect();
        for (request, line) in requests.iter().zip(lines_of(&requests)) {
            let owed = Line { call: request.call, numbers: vec![13, 0], cells: request.lent() };
            assert_eq!(line, owed.to_string(), "{fault:?}; seed {}; {request:?}", seed());
        }
        for case in &cases {
            let refusal = budkarv::list_on(&case.sheet, case.day()).expect_err("a refusal");
            assert_eq!((refusal.number(), refusal.place()), (13, 0), "{fault:?}; {}", case.shown());
        }
    }
}

/// What was met under masks.
#[derive(Debug, Default)]
struct Met {
    /// Accepted, and refused by number.
    numbers: [usize; 14],
    /// Empty, other and verified.
    verdicts: [usize; 3],
    /// Yes, no, open and none.
    answers: [usize; 4],
    /// Verdicts that are "other" without the masks and "verified" under them, and the other way round.
    turned: [usize; 2],
    /// Guesses that are contradicted under the masks alone, by an in-atom in F and by an out-atom in T.
    ruled: [usize; 2],
    /// World views under the masks alone, and without them alone.
    views: [usize; 2],
}

impl Met {
    fn line(&mut self, request: &Request, line: &Line) {
        self.numbers[line.numbers[0] as usize] += 1;
        match (request.call, &line.numbers[..]) {
            (VERDICT, [0, verdict, ..]) => self.verdict(request, *verdict as usize),
            (QUERY, [0, answer]) => self.answers[*answer as usize] += 1,
            _ => (),
        }
    }

    fn verdict(&mut self, request: &Request, verdict: usize) {
        self.verdicts[verdict] += 1;
        let before = open(&request.sheet).and_then(|opened| opened.verdict(request.argument)).expect("a verdict");
        match (before, verdict) {
            (Verdict::Other { .. }, 2) => self.turned[0] += 1,
            (Verdict::Verified { .. }, 1) => self.turned[1] += 1,
            _ => (),
        }
    }

    fn case(&mut self, case: &Case) {
        let program = Program::of(&read(&case.sheet).expect("an accepted sheet"));
        let [in_alone, out_alone] = [[case.masks[0], 0], [0, case.masks[1]]].map(|masks| program.clone().under(masks));
        for guess in (0..1 << program.negations.len()).filter(|&guess| !program.is_contradicted(guess)) {
            self.ruled[0] += usize::from(in_alone.is_contradicted(guess));
            self.ruled[1] += usize::from(out_alone.is_contradicted(guess));
        }
        let guesses = |masks| -> Vec<u16> {
            let opened = open_under(&case.sheet, masks).expect("accepted");
            opened.listing().views.iter().map(|view| view.guess).collect()
        };
        let (before, under) = (guesses([0, 0]), guesses(case.masks));
        self.views[0] += under.iter().filter(|guess| !before.contains(guess)).count();
        self.views[1] += before.iter().filter(|guess| !under.contains(guess)).count();
    }
}

/// The four calls under masks that are accepted, against the second solver, and that all kinds of answers are met.
#[test]
fn random_days() {
    let mut random = Random::new(seed(), 131);
    let cases: Vec<Case> = (0..2_000).map(|_| Case::random(&mut random, random_masks)).collect();
    let mut requests: Vec<Request> = cases.iter().flat_map(|case| case.requests(&mut random)).collect();
    requests.extend(cases.iter().flat_map(Case::verdicts));
    let mut met = Met::default();
    for (request, line) in requests.iter().zip(lines_of(&requests)) {
        let owed = request.line();
        assert_eq!(line, owed.to_string(), "seed {}; {request:?}; sheet {}", seed(), hex(&request.sheet));
        met.line(request, &owed);
    }
    cases.iter().for_each(|case| met.case(case));
    println!("seed {}: {met:?}", seed());
    let numbers = [0, 8, 9, 10].map(|number| met.numbers[number]);
    assert_eq!(numbers.iter().sum::<usize>(), requests.len(), "no other refusal");
    let kinds = [&numbers[..], &met.verdicts, &met.answers, &met.turned, &met.ruled, &met.views].concat();
    assert!(kinds.iter().all(|&count| count >= 5), "{met:?}; seed {}", seed());
}

/// "Right means right for the sheet with those constraints added": where there are at most 64 rules and constraints, the
/// answers are those of the sheet with the constraints as rules.
#[test]
fn constraints_as_rules() {
    let mut random = Random::new(seed(), 132);
    let (mut under, mut added, mut full) = (vec![], vec![], 0);
    for _ in 0..1_500 {
        let case = Case::random(&mut random, random_masks);
        let Some(longer) = case.as_rules() else { continue };
        full += usize::from(open(&longer).expect("an accepted sheet").check()[1] > 60);
        assert_eq!(budkarv::list_on(&case.sheet, case.day()), budkarv::list(&longer), "{}", case.shown());
        let requests = case.requests(&mut random);
        let plain = |request: &Request| Request { sheet: longer.clone(), masks: [0, 0], ..request.clone() };
        added.extend(requests.iter().map(plain));
        under.extend(requests);
    }
    assert!(under.len() > 4_000 && full >= 5, "{} requests, {full} sheets of over 60 rules", under.len());
    for ((line, other), request) in lines_of(&under).iter().zip(lines_of(&added)).zip(&under) {
        assert_eq!(*line, other, "seed {}; {request:?}; sheet {}", seed(), hex(&request.sheet));
    }
}

/// "With both masks zero they give today's answers": those of the second solver without a day. The list is the one at any
/// minute of an empty calendar, a call that passes all masks over.
#[test]
fn masks_of_zero() {
    let mut random = Random::new(seed(), 133);
    let (mut requests, mut at_minutes) = (vec![], vec![]);
    for _ in 0..600 {
        let four = Case::random(&mut random, |_, _| [0, 0]).requests(&mut random);
        at_minutes.push(Request {
            call: LIST_AT,
            argument: random.below(10_080) as u32,
            masks: [random.word() as u16, random.word() as u16],
            companion: vec![0],
            ..four[2].clone()
        });
        requests.extend(four);
    }
    let lines = lines_of(&requests);
    for (line, request) in lines.iter().zip(&requests) {
        assert_eq!(*line, request.line_on(&open(&request.sheet)).to_string(), "seed {}; {request:?}", seed());
    }
    let lists = lines.iter().skip(2).step_by(4);
    for ((list, at), request) in lists.zip(lines_of(&at_minutes)).zip(&at_minutes) {
        assert_eq!(list[1..], at[1..], "seed {}; {request:?}", seed());
    }
}

/// Every belief set under masks is one without them that has each in-atom and no out-atom, and no such set is missing.
#[test]
fn sets_that_have_and_lack() {
    let mut random = Random::new(seed(), 134);
    let cases: Vec<Case> = (0..600).map(|_| Case::random(&mut random, random_masks)).collect();
    let sets = |masks: &dyn Fn(&Case) -> [u16; 2]| -> Vec<Vec<u16>> {
        let request = |case: &Case| Request {
            call: BELIEF_SETS,
            sheet: case.sheet.clone(),
            masks: masks(case),
            cells: 200,
            ..Request::default()
        };
        lines_of(&cases.iter().map(request).collect::<Vec<_>>()).iter().map(|line| written(line)).collect()
    };
    let (all, under) = (sets(&|_| [0, 0]), sets(&|case| case.masks));
    for ((case, all), under) in cases.iter().zip(all).zip(under) {
        let [in_atoms, out_atoms] = case.masks;
        let left: Vec<u16> = all.into_iter().filter(|&set| within(in_atoms, set) && !meet(out_atoms, set)).collect();
        assert_eq!(under, left, "{}", case.shown());
    }
}

/// The belief sets of an accepted line.
fn written(line: &str) -> Vec<u16> {
    let (numbers, cells) = line.split_once(" :").expect(line);
    let count = numbers.strip_prefix("2 0 ").and_then(|count| count.parse().ok()).expect("accepted");
    cells.split_whitespace().take(count).map(|cell| cell.parse().expect("a set")).collect()
}
