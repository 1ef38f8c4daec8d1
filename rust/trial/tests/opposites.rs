//! Pairs of opposites: each way of being turned away; answers of all kinds on sheets with pairs, against the second
//! solver; and what document 02 says of pairs, on the answers of the proved calls alone.

use budkarv::{Atoms, Day, Listing};
use trial::calendars::{edges, random_entries};
use trial::masks::random_masks;
use trial::pairs::{faulty, pairs_of, FAULTS};
use trial::programs::lines_of;
use trial::random::{seed, Random};
use trial::readings::{said, WRONG};
use trial::request::*;
use trial::sheets::{random_sheet, Shape};
use trial::solver::calls::{open, open_under};
use trial::solver::guess::Guess;
use trial::solver::listing::{Program, Verdict};
use trial::solver::sheet::{read, Pair, Rule, Sheet};
use trial::solver::{meet, members, within};
use trial::write::{calendar, hex, rule, sheet, sheet_with, Entry, HEAD, M, NOT_NOT, PLAIN};

const SMALL: Shape = Shape { atoms: (1, 5), rules: (0, 8), negations: 4, literals: 3 };
const MIDDLE: Shape = Shape { atoms: (4, 8), rules: (3, 16), negations: 4, literals: 4 };
const LARGE: Shape = Shape { atoms: (9, 15), rules: (12, 30), negations: 3, literals: 3 };
const FULL: Shape = Shape { atoms: (14, 15), rules: (60, 64), negations: 3, literals: 4 };

/// A sheet, which is accepted, day masks and a calendar's entries, which are too.
struct Case {
    sheet: Sheet,
    masks: [u16; 2],
    entries: Vec<Entry>,
}

/// The set of a pair's atoms.
fn bits([one, other]: Pair) -> u16 {
    1 << one | 1 << other
}

/// Two atoms that are together in a belief set of some guess, the pairs left out.
fn pair_in_a_set(random: &mut Random, sheet: &Sheet) -> Option<Pair> {
    let program = Program::of(&Sheet { pairs: vec![], ..sheet.clone() });
    let sets = program.belief_sets(random.below(1 << program.negations.len()) as Guess);
    let of_two: Vec<u16> = sets.into_iter().filter(|set| set.count_ones() > 1).collect();
    let set = of_two.get(random.below(of_two.len().max(1)))?;
    let mut atoms: Vec<u8> = members(*set).map(|atom| atom as u8).collect();
    let mut atom = || atoms.swap_remove(random.below(atoms.len()));
    Some([atom(), atom()])
}

impl Case {
    /// A sheet of one of these shapes, with any number of pairs. Mostly the last of them is in a belief set of the rules
    /// alone; at times each of its atoms is there where it is possible.
    fn random(random: &mut Random, shapes: &[Shape]) -> Case {
        let shape = random.pick(shapes);
        let mut sheet = read(&random_sheet(random, &shape)).expect("an accepted sheet");
        let atoms = sheet.names.len();
        let (pairs, entries) = (random.between(0, atoms / 2), random.between(0, 4));
        sheet.pairs = pairs_of(random, atoms, pairs);
        if let Some(together) = pair_in_a_set(random, &sheet).filter(|_| random.chance(70)) {
            sheet.pairs.retain(|&pair| !meet(bits(pair), bits(together)));
            sheet.pairs.push(together);
            if random.chance(15) && sheet.rules.len() < 63 {
                sheet.rules.extend(together.map(|atom| rule(&[(HEAD, 1 << atom), (M, 1 << atom)])));
            }
        }
        let entries = random_entries(random, sheet.rules.len(), entries);
        Case { sheet, masks: random_masks(random, atoms), entries }
    }

    fn bytes(&self) -> Vec<u8> {
        sheet_with(&self.sheet.names, &self.sheet.rules, &self.sheet.pairs)
    }

    /// The sheet without its pairs.
    fn without(&self) -> Vec<u8> {
        sheet(&self.sheet.names, &self.sheet.rules)
    }

    /// The sheet with its pairs as rules at its end, each "a constraint with both atoms plain", and no pairs. None where
    /// these are more than 64.
    fn as_rules(&self) -> Option<Vec<u8>> {
        let constraints = self.sheet.pairs.iter().map(|&pair| rule(&[(PLAIN, bits(pair))]));
        let rules: Vec<Rule> = self.sheet.rules.iter().copied().chain(constraints).collect();
        (rules.len() <= 64).then(|| sheet(&self.sheet.names, &rules))
    }

    /// Every call, on a guess, an atom and a minute; some have too few cells.
    fn requests(&self, random: &mut Random) -> Vec<Request> {
        let [atoms, _, negations] = open(&self.bytes()).expect("an accepted sheet").check();
        let minute = random.pick(&edges(&self.entries)).into();
        let mut request = |call| Request {
            call,
            sheet: self.bytes(),
            argument: match call {
                VERDICT | BELIEF_SETS => random.below(1 << negations) as u32,
                QUERY => random.below(atoms) as u32,
                _ => minute,
            },
            masks: self.masks,
            companion: calendar(&self.entries),
            cells: random.pick(&[0, 1, 2, 4, 9, 40]),
            first: 50_000,
        };
        (CHECK..=CHANGES).map(&mut request).collect()
    }

    /// The list, and the verdict on every guess, without masks.
    fn list_and_verdicts(&self) -> Vec<Request> {
        let sheet = self.bytes();
        let [_, _, negations] = open(&sheet).expect("an accepted sheet").check();
        let list = Request { call: LIST, sheet, cells: 40, ..Request::default() };
        let verdict = |argument| Request { call: VERDICT, argument, cells: 0, ..list.clone() };
        [list.clone()].into_iter().chain((0..1 << negations).map(verdict)).collect()
    }

    fn day(&self) -> Day {
        let [in_atoms, out_atoms] = self.masks.map(Atoms::from_bits);
        Day { in_atoms, out_atoms }
    }

    /// The archive's listing.
    fn listed(&self) -> Listing {
        budkarv::list_on(&self.bytes(), self.day()).expect("an accepted sheet and masks")
    }

    fn shown(&self) -> String {
        format!("seed {}, sheet {}, masks {:?}, entries {:?}", seed(), hex(&self.bytes()), self.masks, self.entries)
    }
}

/// Each way of being wrong, at each call, whatever else is asked: the refusal, and the cells as they were lent.
#[test]
fn turned_away() {
    let mut random = Random::new(seed(), 150);
    let three = Shape { atoms: (3, 15), rules: (0, 64), negations: 10, literals: 3 };
    for fault in FAULTS {
        let (mut requests, mut owed) = (vec![], vec![]);
        for _ in 0..60 {
            let mut case = Case::random(&mut random, &[three]);
            let calls = case.requests(&mut random);
            let two_sections = case.without()[..case.without().len() - 1].to_vec();
            let refused = faulty(&mut random, case.sheet.names.len(), fault);
            let (number, place) = (refused.number, (two_sections.len() + refused.at) as u32);
            let bytes = [two_sections, refused.bytes].concat();
            case.masks = [random.word() as u16, random.word() as u16];
            let refusal = budkarv::list_on(&bytes, case.day()).expect_err("a refusal");
            assert_eq!((refusal.number(), refusal.place()), (number, place), "{fault:?}; sheet {}", hex(&bytes));
            for call in calls {
                owed.push(Line { call: call.call, numbers: vec![number, place], cells: call.lent() });
                let argument = random.pick(&[call.argument, u32::MAX]);
                requests.push(Request { sheet: bytes.clone(), argument, masks: case.masks, ..call });
            }
        }
        for ((request, owed), line) in requests.iter().zip(owed).zip(lines_of(&requests)) {
            assert_eq!(line, owed.to_string(), "{fault:?}; seed {}; {request:?}", seed());
            assert_eq!(request.line(), owed, "{fault:?}; the second solver; seed {}; {request:?}", seed());
        }
    }
}

/// What heads a sheet's rules have: each at most one atom; some several; some a free choice.
fn has_heads(sheet: &Sheet) -> [bool; 3] {
    let several = sheet.rules.iter().any(|rule| rule[HEAD].count_ones() > 1);
    let choice = sheet.rules.iter().any(|rule| rule[HEAD] != 0 && within(rule[HEAD], rule[NOT_NOT]));
    [!several, several, choice]
}

/// What was met, on sheets with their pairs against the same without.
#[derive(Debug, Default)]
struct Met {
    /// Sheets by how many pairs they have.
    pairs: [usize; 8],
    /// Sheets of over 57 rules with seven pairs: over 64 together.
    full: usize,
    /// Belief sets that have a pair, by what heads there are.
    removed: [usize; 3],
    /// Verdicts: other and now empty, other and now verified, verified and now empty, verified and now other; another
    /// guess found.
    turned: [usize; 5],
    /// Guesses that are contradicted by a pair alone, and those of them that were verified.
    ruled: [usize; 2],
    /// World views with the pairs alone, and without them alone.
    views: [usize; 2],
    /// Answers to queries, yes, no, open and none, that were others.
    answers: [usize; 4],
    /// Lists under masks that are others than without pairs, and lists at a minute.
    lists: [usize; 2],
    /// Guesses on which a wrong reading shows: by their sets, or in the counts by being ruled.
    wrong: [usize; WRONG.len()],
}

impl Met {
    fn case(&mut self, case: &Case) {
        self.pairs[case.sheet.pairs.len()] += 1;
        self.full += usize::from(case.sheet.rules.len() > 57 && case.sheet.pairs.len() == 7);
        if case.sheet.pairs.is_empty() {
            return;
        }
        let with = Program::of(&case.sheet);
        let without = Program::of(&Sheet { pairs: vec![], ..case.sheet.clone() });
        let views = with.listing().views;
        for guess in 0..1 << with.negations.len() {
            self.guess(case, &with, &without, guess);
            let is_covered = views.iter().any(|view| view.guess != guess && within(guess, view.guess));
            self.wrong(case, &with, guess, is_covered);
        }
        self.lists(case);
    }

    fn wrong(&mut self, case: &Case, program: &Program, guess: Guess, is_covered: bool) {
        let (sets, ruled) = said(program, guess);
        for (count, (_, reading)) in self.wrong.iter_mut().zip(WRONG) {
            let (other_sets, other_ruled) = reading(program, &case.sheet.pairs, guess);
            *count += usize::from(other_sets != sets || other_ruled != ruled && !is_covered);
        }
    }

    fn guess(&mut self, case: &Case, with: &Program, without: &Program, guess: Guess) {
        let (left, all) = (with.belief_sets(guess), without.belief_sets(guess));
        let removed = all.len() - left.len();
        self.removed.iter_mut().zip(has_heads(&case.sheet)).for_each(|(sum, has)| *sum += usize::from(has) * removed);
        let (now, before) = (with.verdict_by(guess, &left), without.verdict_by(guess, &all));
        let turn = match (before, now) {
            (Verdict::Other { .. }, Verdict::Empty) => Some(0),
            (Verdict::Other { .. }, Verdict::Verified { .. }) => Some(1),
            (Verdict::Verified { .. }, Verdict::Empty) => Some(2),
            (Verdict::Verified { .. }, Verdict::Other { .. }) => Some(3),
            (Verdict::Other { .. }, Verdict::Other { .. }) if before != now => Some(4),
            _ => None,
        };
        turn.into_iter().for_each(|turn| self.turned[turn] += 1);
        if with.is_contradicted(guess) && !without.is_contradicted(guess) {
            self.ruled[0] += 1;
            self.ruled[1] += usize::from(matches!(before, Verdict::Verified { .. }));
        }
    }

    fn lists(&mut self, case: &Case) {
        let [with, without] = [case.bytes(), case.without()]
            .map(|sheet| [[0, 0], case.masks].map(|masks| open_under(&sheet, masks).expect("accepted")));
        let guesses = [&with[0], &without[0]]
            .map(|opened| opened.listing().views.iter().map(|view| view.guess).collect::<Vec<_>>());
        let alone = |own: &[Guess], other: &[Guess]| own.iter().filter(|guess| !other.contains(guess)).count();
        self.views[0] += alone(&guesses[0], &guesses[1]);
        self.views[1] += alone(&guesses[1], &guesses[0]);
        for atom in 0..case.sheet.names.len() as u32 {
            let [now, before] = [&with[0], &without[0]].map(|opened| opened.query(atom).expect("an atom"));
            self.answers[now as usize] += usize::from(now != before);
        }
        self.lists[0] += usize::from(with[1].listing() != without[1].listing());
        let hours = calendar(&case.entries);
        for minute in edges(&case.entries) {
            let [now, before] = [&with[0], &without[0]].map(|opened| opened.listing_at(&hours, minute.into()));
            self.lists[1] += usize::from(now != before);
        }
    }
}

/// Every call on sheets of 0 to 7 pairs, against the second solver, and that all kinds of answers are met.
#[test]
fn random_opposites() {
    let mut random = Random::new(seed(), 151);
    let shapes = [SMALL, SMALL, SMALL, MIDDLE, MIDDLE, LARGE, FULL];
    let cases: Vec<Case> = (0..3_000).map(|_| Case::random(&mut random, &shapes)).collect();
    let both = |case: &Case| [case.requests(&mut random), case.list_and_verdicts()].concat();
    let requests: Vec<Vec<Request>> = cases.iter().map(both).collect();
    let mut lines = lines_of(&requests.concat()).into_iter();
    let mut met = Met::default();
    for (case, requests) in cases.iter().zip(requests) {
        for request in requests {
            let owed = request.line().to_string();
            assert_eq!(lines.next(), Some(owed), "call {}, {}; {}", request.call, request.argument, case.shown());
        }
        met.case(case);
    }
    println!("seed {}: {met:?}", seed());
    let Met { pairs, full, removed, turned, ruled, views, answers, lists, wrong } = &met;
    let kinds = [&pairs[..], &[*full], removed, turned, ruled, views, answers, lists, wrong].concat();
    assert!(kinds.iter().all(|&count| count >= 20), "{met:?}; seed {}", seed());
}

/// "A pair acts as a constraint with both atoms plain [..] at every minute": where there are at most 64 rules and pairs,
/// the answers of every call are those of the sheet with the pairs as rules, which the check alone counts, and which no
/// entry of a calendar names.
#[test]
fn pairs_as_rules() {
    let mut random = Random::new(seed(), 152);
    let (mut with, mut added, mut pairs) = (vec![], vec![], vec![]);
    while with.len() < 7 * 1_200 {
        let case = Case::random(&mut random, &[SMALL, MIDDLE, LARGE, FULL]);
        let Some(longer) = case.as_rules() else { continue };
        let listing = budkarv::list_on(&longer, case.day()).expect("an accepted sheet and masks");
        assert_eq!(case.listed(), listing, "{}", case.shown());
        for request in case.requests(&mut random) {
            added.push(Request { sheet: longer.clone(), ..request.clone() });
            pairs.push(if request.call == CHECK { case.sheet.pairs.len() } else { 0 });
            with.push(request);
        }
    }
    let full = added.iter().filter(|request| open(&request.sheet).expect("accepted").check()[1] > 62).count();
    assert!(full >= 7 * 20, "{full} requests on sheets of over 62 rules");
    for (((line, other), pairs), request) in lines_of(&with).iter().zip(lines_of(&added)).zip(pairs).zip(&with) {
        assert_eq!(more_rules(line, pairs), other, "seed {}; {request:?}; sheet {}", seed(), hex(&request.sheet));
    }
}

/// The line of a check with so many rules more, or of no rules more any line.
fn more_rules(line: &str, more: usize) -> String {
    if more == 0 {
        return line.to_string();
    }
    let mut fields: Vec<String> = line.split(' ').map(str::to_string).collect();
    let rules: usize = fields[3].parse().expect("the number of rules");
    fields[3] = (rules + more).to_string();
    fields.join(" ")
}

/// The order of the pairs, and of the two atoms in each, changes no answer.
#[test]
fn pairs_in_any_order() {
    let mut random = Random::new(seed(), 153);
    let (mut requests, mut others) = (vec![], vec![]);
    for _ in 0..600 {
        let mut case = Case::random(&mut random, &[MIDDLE, LARGE]);
        let calls = case.requests(&mut random);
        let listing = case.listed();
        case.sheet.pairs.reverse();
        case.sheet.pairs.iter_mut().filter(|_| random.chance(70)).for_each(|pair| pair.reverse());
        assert_eq!(case.listed(), listing, "{}", case.shown());
        others.extend(calls.iter().map(|request| Request { sheet: case.bytes(), ..request.clone() }));
        requests.extend(calls);
    }
    for ((line, other), request) in lines_of(&requests).iter().zip(lines_of(&others)).zip(&requests) {
        assert_eq!(*line, other, "seed {}; {request:?}; sheet {}", seed(), hex(&request.sheet));
    }
}

/// The belief sets of a guess are those without the pairs in which no pair is, beyond 64 rules too.
#[test]
fn sets_that_have_no_pair() {
    let mut random = Random::new(seed(), 154);
    let (mut with, mut without, mut pairs) = (vec![], vec![], vec![]);
    for _ in 0..800 {
        let case = Case::random(&mut random, &[SMALL, MIDDLE, MIDDLE, LARGE, FULL]);
        let opened = open_under(&case.without(), case.masks).expect("accepted");
        let guess = random.below(1 << opened.check()[2]) as u16;
        let request = Request {
            call: BELIEF_SETS,
            sheet: case.bytes(),
            argument: guess.into(),
            masks: case.masks,
            cells: opened.sets_of(guess).len() as u16,
            ..Request::default()
        };
        without.push(Request { sheet: case.without(), ..request.clone() });
        with.push(request);
        pairs.push(case.sheet.pairs);
    }
    let mut removed = 0;
    for (((left, all), pairs), request) in lines_of(&with).iter().zip(lines_of(&without)).zip(pairs).zip(&with) {
        let all = written(&all);
        let has_pair = |&set: &u16| pairs.iter().any(|&pair| within(bits(pair), set));
        let expected: Vec<u16> = all.iter().copied().filter(|set| !has_pair(set)).collect();
        assert_eq!(written(left), expected, "seed {}; {request:?}; sheet {}", seed(), hex(&request.sheet));
        removed += usize::from(expected.len() < all.len());
    }
    println!("seed {}: {removed} of 800 guesses lose sets", seed());
    assert!(removed >= 50, "{removed} guesses lose sets; seed {}", seed());
}

/// The belief sets of an accepted line.
fn written(line: &str) -> Vec<u16> {
    let (numbers, cells) = line.split_once(" :").expect(line);
    let count = numbers.strip_prefix("2 0 ").and_then(|count| count.parse().ok()).expect("accepted");
    cells.split_whitespace().take(count).map(|cell| cell.parse().expect("a set")).collect()
}
