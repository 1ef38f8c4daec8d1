//! What document 02 says of the list at a minute and of the minutes of change, on the answers of the program `calls`
//! alone; the rules in force are found here once more.

use trial::calendars::{edges, random_entries};
use trial::programs::lines_of;
use trial::random::{seed, Random};
use trial::request::*;
use trial::sheets::{random_sheet, Shape};
use trial::solver::sheet::read;
use trial::write::{calendar, hex, sheet_with, Entry};

const SMALL: Shape = Shape { atoms: (1, 4), rules: (1, 8), negations: 5, literals: 3 };
const MIDDLE: Shape = Shape { atoms: (3, 6), rules: (4, 20), negations: 6, literals: 4 };
const MANY: Shape = Shape { atoms: (1, 4), rules: (30, 64), negations: 3, literals: 4 };

const WEEK: u16 = 10_080;

/// A sheet and the entries of a calendar.
struct Timed {
    sheet: Vec<u8>,
    entries: Vec<Entry>,
}

impl Timed {
    fn random(random: &mut Random) -> Timed {
        let shape = random.pick(&[SMALL, SMALL, MIDDLE, MIDDLE, MANY]);
        let sheet = random_sheet(random, &shape);
        let rules = read(&sheet).expect("an accepted sheet").rules.len();
        let count = if random.chance(5) { 64 } else { random.between(1, 8) };
        Timed { entries: random_entries(random, rules, count), sheet }
    }

    fn request(&self, call: u8, minute: u16, cells: u16) -> Request {
        let (sheet, companion) = (self.sheet.clone(), calendar(&self.entries));
        Request { call, sheet, argument: minute.into(), companion, cells, first: 50_000, ..Request::default() }
    }

    /// The bytes of the sheet with only the rules in force, and all its pairs.
    fn at(&self, minute: u16) -> Vec<u8> {
        let whole = read(&self.sheet).expect("an accepted sheet");
        let numbered = (0..).zip(whole.rules);
        let rules: Vec<_> =
            numbered.filter(|&(i, _)| in_force(&self.entries, i, minute)).map(|(_, rule)| rule).collect();
        sheet_with(&whole.names, &rules, &whole.pairs)
    }

    fn shown(&self) -> String {
        format!("seed {}, sheet {}, entries {:?}", seed(), hex(&self.sheet), self.entries)
    }
}

fn in_force(entries: &[Entry], rule: u8, minute: u16) -> bool {
    let mut own = entries.iter().filter(|entry| entry.0 == rule).peekable();
    own.peek().is_none() || own.any(|&(_, first, end)| later(first, minute) < later(first, end))
}

/// How many minutes after one another comes next, over the week's close if need be.
fn later(from: u16, to: u16) -> u16 {
    (to + WEEK - from) % WEEK
}

/// The lines of the program, each without its call.
fn answers(requests: &[Request]) -> Vec<String> {
    lines_of(requests).iter().map(|line| line.split_once(' ').expect(line).1.to_string()).collect()
}

/// "Listing at a minute is the listing of the sheet with only the rules in force": of its bytes.
#[test]
fn the_rules_in_force_as_a_sheet() {
    let mut random = Random::new(seed(), 120);
    let (mut at_minutes, mut of_sheets, mut shown) = (vec![], vec![], vec![]);
    for _ in 0..500 {
        let timed = Timed::random(&mut random);
        let edges = edges(&timed.entries);
        for _ in 0..edges.len().min(12) {
            let minute = random.pick(&edges);
            let at = timed.request(LIST_AT, minute, random.pick(&[0, 3, 4, 9, 40]));
            of_sheets.push(Request {
                call: LIST,
                sheet: timed.at(minute),
                argument: 0,
                companion: vec![],
                ..at.clone()
            });
            at_minutes.push(at);
            shown.push(format!("{}, minute {minute}", timed.shown()));
        }
    }
    for ((at, of), shown) in answers(&at_minutes).iter().zip(answers(&of_sheets)).zip(shown) {
        assert_eq!(*at, of, "{shown}");
    }
}

/// The minutes of change of each, by the program.
fn changes(all: &[Timed]) -> Vec<Vec<u16>> {
    let requests: Vec<Request> = all.iter().map(|timed| timed.request(CHANGES, 0, 128)).collect();
    let minutes = |line: String| {
        let (numbers, cells) = line.split_once(" : ").expect("cells");
        let count = numbers.strip_prefix("0 ").and_then(|count| count.parse().ok()).expect("accepted");
        cells.split(' ').take(count).map(|cell| cell.parse().expect("a minute")).collect()
    };
    answers(&requests).into_iter().map(minutes).collect()
}

/// The stretches of the week in which no minute but the first is one of change: each by its first and its last minute.
fn stretches(changes: &[u16]) -> Vec<(u16, u16)> {
    let Some(&first) = changes.first() else { return vec![(0, WEEK - 1)] };
    let next = changes.iter().skip(1).chain([&first]);
    changes.iter().zip(next).map(|(&from, &next)| (from, (next + WEEK - 1) % WEEK)).collect()
}

/// From one minute of change to the next the lists are equal; at these minutes many differ.
#[test]
fn equal_between_minutes_of_change() {
    let mut random = Random::new(seed(), 121);
    let all: Vec<Timed> = (0..600).map(|_| Timed::random(&mut random)).collect();
    let (mut requests, mut places) = (vec![], vec![]);
    for (number, (timed, changes)) in all.iter().zip(changes(&all)).enumerate() {
        for (from, to) in stretches(&changes) {
            let between = (from + random.below(usize::from(later(from, to)) + 1) as u16) % WEEK;
            requests.extend([from, between, to].map(|minute| timed.request(LIST_AT, minute, 40)));
            places.push((number, format!("{}, {between} between {from} and {to}", timed.shown())));
        }
    }
    let lines = answers(&requests);
    let mut lists: Vec<(usize, &str)> = Vec::new();
    for (lines, (number, place)) in lines.chunks(3).zip(places) {
        assert!(lines[0] == lines[1] && lines[0] == lines[2], "{place}: {lines:?}");
        lists.push((number, &lines[0]));
    }
    let differ = lists.windows(2).filter(|two| two[0].0 == two[1].0 && two[0].1 != two[1].1).count();
    assert!(differ >= 100, "lists differ at {differ} of {} minutes of change", lists.len());
}
