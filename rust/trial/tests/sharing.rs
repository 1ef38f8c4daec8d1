//! Sheets on one allowance: answers of all kinds against the second solver, on calls that have to show each wrong way to
//! share one; each way of being turned away; and what document 02 says, on the answers of the program `calls` alone.

use std::collections::HashMap;
use trial::cases::sharing::cases as by_hand;
use trial::cases::sheets::longest;
use trial::known::{kiln, titled};
use trial::masks::random_masks;
use trial::programs::{lines_of, output};
use trial::random::{seed, Random};
use trial::request::*;
use trial::sharing::{Sharing, MOST_SHARED_CELLS, MOST_SHARED_SHEET};
use trial::solver::calls::{open, open_under};
use trial::solver::sharing::Test;
use trial::solver::sheet::read as read_sheet;
use trial::studios::{accepted_requests, last_turn, refused_request, refused_sheet, request, studio, studios};
use trial::turns::{read, wrong, Call, RIGHT};
use trial::write::hex;

/// Requests of all kinds; those for the same sheets stand together, some of them twice.
fn random_requests(random: &mut Random, count: usize) -> Vec<Vec<Request>> {
    let twice = |random: &mut Random, request: Request| vec![request; if random.chance(20) { 2 } else { 1 }];
    let mut requests = |_| match random.chance(60) {
        true => accepted_requests(random).into_iter().flat_map(|request| twice(random, request)).collect(),
        false => {
            let request = refused_request(random);
            twice(random, request)
        }
    };
    (0..count).map(&mut requests).collect()
}

fn shown(request: &Request) -> String {
    let sharing = request.sharing();
    let sheets: Vec<String> = sharing.sheets.iter().map(|sheet| hex(sheet)).collect();
    let (told, cells) = (sharing.told, sharing.cells);
    format!("seed {}, allowance {}, told {told}, sheets {sheets:?}, cells {cells:?}", seed(), request.argument)
}

/// The program's line of each request against the one that is owed.
fn compare(requests: &[Request], owed: &[Line]) {
    for ((request, owed), line) in requests.iter().zip(owed).zip(lines_of(requests)) {
        assert_eq!(line, owed.to_string(), "{}", shown(request));
    }
}

/// What was met.
#[derive(Debug, Default)]
struct Met {
    /// Calls that were accepted (0) and refused, by number.
    numbers: [usize; 16],
    /// Accepted calls by the number of sheets.
    sheets: [usize; 4],
    /// Those with allowance 0, with some left, spent on the last test of all, and spent on the last test of some sheet.
    allowances: [usize; 4],
    /// Their sheets that are not finished, and that are.
    finished: [usize; 2],
    /// Their sheets that are without tests, without negations, with pairs, and equal to the one before.
    kinds: [usize; 4],
}

impl Met {
    fn line(&mut self, request: &Request, line: &Line, tests: &[Vec<Test>]) {
        self.numbers[line.numbers[0] as usize] += 1;
        if line.numbers[0] != 0 {
            return;
        }
        let shares: Vec<&[u32]> = line.numbers[2..].chunks(3).collect();
        self.sheets[shares.len() - 1] += 1;
        shares.iter().for_each(|share| self.finished[share[0] as usize] += 1);
        let all: Vec<usize> = tests.iter().map(Vec::len).collect();
        let (allowance, total) = (request.argument as usize, all.iter().sum());
        let is_last = |position| all[position] > 0 && last_turn(&all, position) == allowance;
        let kinds = [allowance == 0, allowance > total, allowance == total, (0..all.len()).any(is_last)];
        add(&mut self.allowances, kinds);
        let sheets = request.sharing().sheets;
        for (position, sheet) in sheets.iter().enumerate() {
            let [_, _, negations] = open(sheet).expect("an accepted sheet").check();
            let pairs = read_sheet(sheet).expect("an accepted sheet").pairs.len();
            let equal = position > 0 && sheets[position - 1] == *sheet;
            add(&mut self.kinds, [all[position] == 0, negations == 0, pairs > 0, equal]);
        }
    }
}

fn add<const N: usize>(counts: &mut [usize; N], kinds: [bool; N]) {
    counts.iter_mut().zip(kinds).for_each(|(count, is)| *count += usize::from(is));
}

/// Calls of all kinds against the second solver, and that all kinds are met.
#[test]
fn random_calls() {
    let mut random = Random::new(seed(), 160);
    let mut met = Met::default();
    let (mut all, mut owed) = (vec![], vec![]);
    for requests in random_requests(&mut random, 2_500) {
        let tests = requests[0].sharing().tests();
        for request in requests {
            let line = request.line_by(&tests);
            met.line(&request, &line, tests.as_deref().unwrap_or_default());
            owed.push(line);
            all.push(request);
        }
    }
    println!("seed {}, {} requests: {met:?}", seed(), all.len());
    let Met { numbers, sheets, allowances, finished, kinds } = &met;
    let refusals = [0, 1, 2, 3, 4, 5, 6, 7, 9, 14, 15].map(|number| numbers[number]);
    let kinds = [&refusals[..], sheets, allowances, finished, kinds].concat();
    assert!(kinds.iter().all(|&count| count >= 10), "{met:?}; seed {}", seed());
    compare(&all, &owed);
}

/// Such calls show each wrong way; and the right way, which deals no turns, gives the second solver's lines.
#[test]
fn wrong_ways() {
    let mut random = Random::new(seed(), 161);
    let mut shows = vec![0; wrong().len()];
    for requests in random_requests(&mut random, 3_000) {
        let sharing = requests[0].sharing();
        let (tests, sheets) = (sharing.tests(), read(&sharing.sheets));
        for request in requests {
            let (call, line) = (Call::new(&request, sheets.clone()), request.line_by(&tests));
            assert_eq!(RIGHT.line(&call), line, "{}", shown(&request));
            shows.iter_mut().zip(wrong()).for_each(|(shows, (_, way))| *shows += usize::from(way.line(&call) != line));
        }
    }
    let named: Vec<(&str, usize)> = wrong().iter().zip(shows).map(|((name, _), shows)| (*name, shows)).collect();
    println!("seed {}: {named:?}", seed());
    let few: Vec<_> = named.iter().filter(|(_, shows)| *shows < 20).collect();
    assert!(few.is_empty(), "{few:?}; seed {}", seed());
}

/// The calls that were worked out by hand show each wrong way too.
#[test]
fn wrong_ways_by_hand() {
    let calls: Vec<(Call, Line)> = by_hand()
        .into_iter()
        .map(|case| (Call::new(&case.request, read(&case.request.sharing().sheets)), case.request.line()))
        .collect();
    for (name, way) in wrong() {
        assert!(calls.iter().any(|(call, line)| way.line(call) != *line), "{name}");
    }
    assert!(calls.iter().all(|(call, line)| RIGHT.line(call) == *line));
}

/// One refused sheet, or two, at each position: the first one's refusal, as the check of that sheet has it, and every
/// cell as it was lent. The other sheets' views fit or don't.
#[test]
fn turned_away() {
    let mut random = Random::new(seed(), 162);
    let (mut requests, mut checks, mut positions) = (vec![], vec![], vec![]);
    let mut met: HashMap<(u32, usize), usize> = HashMap::new();
    while requests.len() < 2_400 {
        let (mut sheets, position) = (studios(&mut random), random.below(4));
        sheets.resize_with(sheets.len().max(position + 1), || studio(&mut random));
        sheets[position] = refused_sheet(&mut random);
        if let Some(later) = sheets.get_mut(position + 1).filter(|_| random.chance(40)) {
            *later = refused_sheet(&mut random);
        }
        let cells: Vec<u16> = sheets.iter().map(|_| random.pick(&[0, 0, 3, 8])).collect();
        let number = open(&sheets[position]).expect_err("a refused sheet").number;
        *met.entry((number, position)).or_default() += 1;
        requests.push(request(&sheets, &cells, random.pick(&[0, 1, 7, 100, u32::MAX])));
        checks.push(Request { call: CHECK, sheet: sheets[position].clone(), ..Request::default() });
        positions.push(position);
    }
    let each = [1, 2, 3, 4, 5, 6, 7, 15].iter().flat_map(|&number| (0..4).map(move |position| (number, position)));
    assert!(each.clone().all(|kind| met.contains_key(&kind)), "{met:?}; seed {}", seed());
    let checked = lines_of(&checks);
    for (((request, line), check), position) in requests.iter().zip(lines_of(&requests)).zip(checked).zip(positions) {
        let refusal = check.strip_prefix("0 ").and_then(|check| check.strip_suffix(" :")).expect("a refusal, no cells");
        let cells: String = request.lent().iter().map(|cell| format!(" {cell}")).collect();
        assert_eq!(line, format!("7 {refusal} {position} :{cells}"), "{}", shown(request));
        assert_eq!(request.line().to_string(), line, "the second solver; {}", shown(request));
    }
}

/// An accepted line: the tests in all, and of each sheet whether it is finished, its tests, its views and its buffer.
struct Answer {
    tests: u32,
    shares: Vec<[u32; 3]>,
    buffers: Vec<Vec<u16>>,
}

impl Answer {
    fn read(request: &Request, line: &str) -> Answer {
        let (numbers, cells) = line.split_once(" :").expect(line);
        let numbers: Vec<u32> = numbers.split(' ').map(|number| number.parse().expect(line)).collect();
        assert_eq!(numbers[..2], [7, 0], "an accepted call; {}", shown(request));
        let mut cells = cells.split_whitespace().map(|cell| cell.parse().expect(line));
        let lent = request.sharing().cells;
        let buffers = lent.iter().map(|&count| cells.by_ref().take(count.into()).collect()).collect();
        let shares = numbers[3..].chunks(3).map(|share| share.try_into().expect("three numbers")).collect();
        Answer { tests: numbers[2], shares, buffers }
    }

    /// The records of the sheet at a position.
    fn records(&self, position: usize) -> &[u16] {
        &self.buffers[position][..4 * self.shares[position][2] as usize]
    }
}

/// Cells that are enough for all views of any of these sheets.
const ENOUGH: u16 = 4 * 20;

/// What a sheet's own list says: how many guesses are tested, the number of views, and the buffer, of `ENOUGH` cells.
fn listed(sheets: &[Vec<u8>]) -> Vec<(u32, u32, Vec<u16>)> {
    let list = |sheet: &Vec<u8>| {
        let sheet = sheet.clone();
        Request { call: LIST, sheet, cells: ENOUGH, first: 50_000, ..Request::default() }
    };
    let read = |line: &String| {
        let (numbers, cells) = line.split_once(" :").expect(line);
        let numbers: Vec<u32> = numbers.split(' ').map(|number| number.parse().expect(line)).collect();
        assert_eq!(numbers[..2], [3, 0], "{line}");
        (numbers[5], numbers[2], cells.split_whitespace().map(|cell| cell.parse().expect(line)).collect())
    };
    lines_of(&sheets.iter().map(list).collect::<Vec<_>>()).iter().map(read).collect()
}

/// Some sheets, their own lists, and requests with every allowance from 0 to one more than all tests, and the largest.
struct Group {
    sheets: Vec<Vec<u8>>,
    lists: Vec<(u32, u32, Vec<u16>)>,
    requests: Vec<Request>,
}

fn random_groups(random: &mut Random, count: usize) -> Vec<Group> {
    let all: Vec<Vec<Vec<u8>>> = (0..count).map(|_| studios(random)).collect();
    let mut lists = listed(&all.concat()).into_iter();
    let mut group = |sheets: Vec<Vec<u8>>| {
        let lists: Vec<_> = lists.by_ref().take(sheets.len()).collect();
        let tests: u32 = lists.iter().map(|list| list.0).sum();
        let cells = vec![ENOUGH; sheets.len()];
        let requests = (0..=tests + 1).chain([u32::MAX]).map(|allowance| request(&sheets, &cells, allowance)).collect();
        Group { sheets, lists, requests }
    };
    all.into_iter().map(&mut group).collect()
}

/// What is said of one call: "the tests used, [..] for each sheet and in all, never pass the allowance; a sheet left
/// unfinished has had at least the allowance divided by the number of sheets, rounded down"; finished "exactly when no
/// guess that would be tested remains", and then the views are all of its own listing.
fn holds_of_one(group: &Group, request: &Request, answer: &Answer) {
    let (shares, allowance, shown) = (&answer.shares, request.argument, shown(request));
    let all: u32 = group.lists.iter().map(|list| list.0).sum();
    assert_eq!(shares.len(), group.sheets.len(), "{shown}");
    assert_eq!(answer.tests, shares.iter().map(|share| share[1]).sum::<u32>(), "{shown}");
    assert_eq!(answer.tests, allowance.min(all), "{shown}");
    for (position, (&[finished, tests, views], (tested, whole, list))) in shares.iter().zip(&group.lists).enumerate() {
        let records = answer.records(position);
        assert!(tests <= *tested && views <= tests && views <= *whole, "position {position}; {shown}");
        assert_eq!(finished, u32::from(tests == *tested), "position {position}; {shown}");
        assert!(finished == 1 || tests >= allowance / shares.len() as u32, "position {position}; {shown}");
        assert!(finished == 0 || views == *whole, "position {position}; {shown}");
        assert_eq!(records, &list[..records.len()], "position {position}; {shown}");
        let kept = (50_000..50_000 + ENOUGH).skip(records.len());
        assert!(answer.buffers[position][records.len()..].iter().copied().eq(kept), "position {position}; {shown}");
    }
}

/// From one allowance to the next: one sheet has one test more, and nothing is taken from another; or all are finished.
fn holds_of_two(request: &Request, smaller: &Answer, larger: &Answer) {
    let shown = shown(request);
    let mut more = 0;
    for (position, (before, after)) in smaller.shares.iter().zip(&larger.shares).enumerate() {
        let tests = after[1].checked_sub(before[1]).expect("no fewer tests");
        let (before, after) = (smaller.records(position), larger.records(position));
        assert!(after.starts_with(before), "a larger allowance only adds views; position {position}; {shown}");
        assert!(after.len() - before.len() <= 4 * tests as usize, "position {position}; {shown}");
        more += tests;
    }
    assert!(more <= 1, "{shown}");
}

#[test]
fn every_allowance() {
    let mut random = Random::new(seed(), 163);
    let groups = random_groups(&mut random, 250);
    let requests: Vec<Request> = groups.iter().flat_map(|group| group.requests.clone()).collect();
    let mut lines = lines_of(&requests).into_iter();
    for group in &groups {
        let answer = |request| Answer::read(request, &lines.next().expect("a line for each request"));
        let answers: Vec<Answer> = group.requests.iter().map(answer).collect();
        for (request, answer) in group.requests.iter().zip(&answers) {
            holds_of_one(group, request, answer);
        }
        for (request, two) in group.requests.iter().zip(answers.windows(2)) {
            holds_of_two(request, &two[0], &two[1]);
        }
    }
    println!("seed {}: {} requests for {} groups of sheets", seed(), requests.len(), groups.len());
}

/// "Whatever the other sheets hold": a sheet alone, with as many tests as it had beside others, answers the same.
#[test]
fn alone_and_beside_others() {
    let mut random = Random::new(seed(), 164);
    let all: Vec<Request> = (0..600)
        .map(|_| {
            let sheets = studios(&mut random);
            request(&sheets, &vec![ENOUGH; sheets.len()], random.below(30) as u32)
        })
        .collect();
    let answers: Vec<Answer> =
        all.iter().zip(lines_of(&all)).map(|(request, line)| Answer::read(request, &line)).collect();
    let (mut alone, mut owed, mut shows) = (vec![], vec![], vec![]);
    for (together, answer) in all.iter().zip(&answers) {
        for (position, sheet) in together.sharing().sheets.into_iter().enumerate() {
            alone.push(request(&[sheet], &[ENOUGH], answer.shares[position][1]));
            owed.push((answer.shares[position], answer.buffers[position].clone()));
            shows.push(format!("position {position}; {}", shown(together)));
        }
    }
    for (((request, line), owed), shown) in alone.iter().zip(lines_of(&alone)).zip(owed).zip(shows) {
        let answer = Answer::read(request, &line);
        assert_eq!((answer.shares[0], answer.buffers[0].clone()), owed, "{shown}");
    }
}

/// One cell less than the views reached, at each position that has any; at two positions; and at each as many as they
/// fill.
#[test]
fn buffers_that_just_suffice() {
    let mut random = Random::new(seed(), 165);
    let (mut requests, mut owed) = (vec![], vec![]);
    let mut short = [0; 4];
    while requests.len() < 4_000 {
        let sheets = studios(&mut random);
        let tests = Sharing::of(&sheets, &[]).tests();
        let allowance = random.below(24) as u32;
        let line = request(&sheets, &vec![ENOUGH; sheets.len()], allowance).line_by(&tests);
        let views: Vec<u32> = line.numbers[2..].chunks(3).map(|share| share[2]).collect();
        let exact: Vec<u16> = views.iter().map(|&views| 4 * views as u16).collect();
        let reached: Vec<usize> = (0..views.len()).filter(|&position| views[position] > 0).collect();
        requests.push(request(&sheets, &exact, allowance));
        owed.push(requests[requests.len() - 1].line_by(&tests).numbers);
        assert_eq!(owed[owed.len() - 1], line.numbers, "accepted; {}", shown(&requests[requests.len() - 1]));
        for (first, second) in reached.iter().flat_map(|first| reached.iter().map(move |second| (*first, *second))) {
            let mut cells = exact.clone();
            cells[first] -= 1;
            cells[second] -= u16::from(second != first);
            requests.push(request(&sheets, &cells, allowance));
            owed.push(vec![9, views[first.min(second)], first.min(second) as u32]);
            short[first.min(second)] += 1;
        }
    }
    assert!(short.iter().all(|&count| count >= 50), "{short:?}; seed {}", seed());
    for ((request, owed), line) in requests.iter().zip(owed).zip(lines_of(&requests)) {
        let numbers: String = owed.iter().map(|number| format!(" {number}")).collect();
        assert!(line.starts_with(&format!("7{numbers} :")), "{line}; owed {numbers}; {}", shown(request));
        assert_eq!(request.line().to_string(), line, "the second solver; {}", shown(request));
    }
}

/// The request's own sheet, day masks and cells are passed over: the sheets take no masks, though under them many would
/// be listed otherwise.
#[test]
fn passed_over() {
    let mut random = Random::new(seed(), 166);
    let (mut requests, mut others, mut masked) = (vec![], vec![], 0);
    for _ in 0..400 {
        let sheets = studios(&mut random);
        let masks = random_masks(&mut random, sheets[0][0].into());
        let request = request(&sheets, &vec![ENOUGH; sheets.len()], random.below(40) as u32);
        let listings = [[0, 0], masks].map(|masks| open_under(&sheets[0], masks).expect("accepted").listing().clone());
        masked += usize::from(listings[0] != listings[1]);
        let sheet = if random.chance(50) { refused_sheet(&mut random) } else { sheets[0].clone() };
        let masks = if random.chance(70) { masks } else { [random.word() as u16, random.word() as u16] };
        let cells = random.pick(&[1, 3, 40, MOST_CELLS]);
        others.push(Request { sheet, masks, cells, ..request.clone() });
        requests.push(request);
    }
    assert!(masked >= 100, "{masked} sheets are listed otherwise under the masks; seed {}", seed());
    let owed: Vec<Line> = requests.iter().map(Request::line).collect();
    compare(&requests, &owed);
    compare(&others, &owed);
}

/// Companions that end the program: cut off at each length, with bytes left, beyond a bound.
fn ending_companions() -> Vec<Vec<u8>> {
    let kilns =
        |told: u8, count: usize, cells: u16| Sharing { told, ..Sharing::of(&vec![kiln(); count], &vec![cells; count]) };
    let mut found = vec![];
    for whole in [kilns(1, 1, 4), kilns(2, 2, 4), kilns(4, 4, 0), kilns(5, 4, 4), kilns(255, 4, 4), kilns(0, 0, 0)] {
        let whole = whole.bytes();
        found.extend((0..whole.len()).map(|length| whole[..length].to_vec()));
        found.extend([vec![0], vec![0, 0, 0, 0], kilns(1, 1, 4).bytes()].map(|more| [whole.clone(), more].concat()));
    }
    let longer = vec![0; usize::from(MOST_SHARED_SHEET) + 1];
    let four = [kiln(), kiln(), kiln(), longer];
    found.extend([3, 2, 0].map(|start| Sharing::of(&four[start..], &[4; 4][start..]).bytes()));
    found.push(Sharing { told: 9, ..Sharing::of(&four, &[4; 4]) }.bytes());
    for cells in [MOST_SHARED_CELLS + 1, 16_384, 32_768, 65_535] {
        found.push(kilns(1, 1, cells).bytes());
        found.push(Sharing::of(&[kiln(), kiln()], &[4, cells]).bytes());
        found.push(kilns(5, 4, cells).bytes());
    }
    found
}

/// "A companion that is cut off or has bytes left ends the program", or one beyond a bound: nothing is printed for it,
/// and nothing for what follows.
#[test]
fn companions_that_end_the_program() {
    let good = request(&[kiln()], &[4], 1);
    let line = format!("{}\n", good.line());
    for companion in ending_companions() {
        assert_eq!(Sharing::read(&companion), None, "companion {}", hex(&companion));
        let bad = Request { companion: companion.clone(), ..good.clone() };
        let input = [good.bytes(), bad.bytes(), good.bytes()].concat();
        let printed = String::from_utf8(output("calls", input, 1 << 16)).expect("calls prints text");
        assert_eq!(printed, line, "companion {}", hex(&companion));
    }
}

/// The longest sheets and the most cells, four times; then a short request, in which nothing of those is left.
#[test]
fn the_largest_requests() {
    let long = [kiln(), vec![0; usize::from(MOST_SHARED_SHEET) - kiln().len()]].concat();
    let most = [MOST_SHARED_CELLS; 4];
    let four = |sheet: &[u8]| [(); 4].map(|()| sheet.to_vec());
    let last_long = [kiln(), kiln(), kiln(), long.clone()];
    let requests = [
        request(&four(&titled("own 6:").sheet), &most, u32::MAX),
        request(&four(&longest()), &most, 3),
        request(&last_long, &most, 3),
        Request { sheet: long.clone(), masks: [65_535; 2], cells: MOST_CELLS, ..request(&four(&long), &most, 0) },
        request(&[kiln()], &[5], 1),
        request(&[kiln()], &[0], 0),
    ];
    let owed = requests.clone().map(|request| request.line());
    assert_eq!(owed[0].numbers, [0, 16, 1, 4, 3, 1, 4, 3, 1, 4, 3, 1, 4, 3]);
    assert_eq!(owed[1].numbers, [0, 3, 1, 1, 1, 1, 1, 1, 1, 1, 1, 0, 0, 0]);
    assert_eq!(owed[2].numbers, [6, kiln().len() as u32, 3]);
    assert_eq!(owed[4].to_string(), "7 0 1 1 1 1 : 0 1 1 1 50004");
    compare(&requests, &owed);
}
