//! The program `calls`, which makes every call on requests from standard input, against the second solver.

use trial::calendars::{edges, random_entries};
use trial::cases::sheets::free;
use trial::damage::{damaged, damaged_calendar, too_many_negations};
use trial::known::{kiln, titled};
use trial::masks::{faulty_masks, random_masks, FAULTS};
use trial::programs::output;
use trial::random::{seed, Random};
use trial::request::*;
use trial::sharing::Sharing;
use trial::sheets::{random_sheet, Shape};
use trial::solver::calendar::WEEK;
use trial::solver::calls::{open, Opened};
use trial::studios::{accepted_requests, refused_request};
use trial::write::{calendar, hex};

const SMALL: Shape = Shape { atoms: (0, 4), rules: (0, 6), negations: 4, literals: 3 };
const MIDDLE: Shape = Shape { atoms: (3, 7), rules: (3, 16), negations: 6, literals: 4 };
const MANY: Shape = Shape { atoms: (1, 4), rules: (30, 64), negations: 3, literals: 4 };

/// Runs the requests through the program and compares line by line; `tail` follows them and is to print nothing.
/// Answers the lines.
fn compare(requests: &[Request], tail: &[u8], piece: usize, context: &str) -> Vec<Line> {
    let mut input: Vec<u8> = requests.iter().flat_map(Request::bytes).collect();
    input.extend(tail);
    let printed = String::from_utf8(output("calls", input, piece)).expect("calls prints text");
    let mut lines = printed.split_terminator('\n');
    let owed: Vec<Line> = requests.iter().map(Request::line).collect();
    for (request, line) in requests.iter().zip(&owed) {
        let bytes = || format!("sheet {}, companion {}", hex(&request.sheet), hex(&request.companion));
        let shown = || format!("{context}; {request:?}; {}", bytes());
        assert_eq!(lines.next(), Some(line.to_string().as_str()), "{}", shown());
    }
    assert_eq!(lines.next(), None, "no line after the last request's; {context}; tail {}", hex(tail));
    assert!(printed.is_empty() || printed.ends_with('\n'), "each line ends with byte 10; {context}");
    owed
}

/// How often each refusal came (0: accepted).
fn by_number(lines: &[Line]) -> [usize; 16] {
    let mut numbers = [0; 16];
    lines.iter().for_each(|line| numbers[line.numbers[0] as usize] += 1);
    numbers
}

/// How often each answer to a query came: yes, no, open and none.
fn by_answer(lines: &[Line]) -> [usize; 4] {
    let mut answers = [0; 4];
    let accepted = lines.iter().filter(|line| line.call == QUERY && line.numbers[0] == 0);
    accepted.for_each(|line| answers[line.numbers[1] as usize] += 1);
    answers
}

fn random_bytes(random: &mut Random) -> Vec<u8> {
    if random.chance(4) {
        return too_many_negations(random);
    }
    let shape = random.pick(&[SMALL, SMALL, MIDDLE, MIDDLE, MANY]);
    let sheet = random_sheet(random, &shape);
    if random.chance(25) {
        damaged(random, &sheet)
    } else {
        sheet
    }
}

/// An argument around a bound: below it, at it, just outside 16 bits, or any.
fn argument(random: &mut Random, bound: usize) -> u32 {
    let below = random.below(bound.max(1)) as u32;
    let bound = bound as u32;
    let chosen = [below, bound, below + 65_536, below + (1 << 31), u32::MAX - below, random.word() as u32];
    match random.below(16) {
        i @ 1..=5 => chosen[i],
        6 => bound.saturating_sub(1),
        _ => below,
    }
}

/// Day masks over so many atoms: mostly accepted ones, some with one thing wrong, some of any bits.
fn masks(random: &mut Random, atoms: usize) -> [u16; 2] {
    match random.below(12) {
        0 => [random.word() as u16, random.word() as u16],
        1 if atoms > 0 => {
            let fault = random.pick(&FAULTS);
            faulty_masks(random, atoms, fault)
        }
        _ => random_masks(random, atoms),
    }
}

/// A companion that is passed over: mostly short, sometimes of any length or the longest.
fn companion(random: &mut Random) -> Vec<u8> {
    let length = match random.below(40) {
        0 => MOST_COMPANION,
        1 => random.below(MOST_COMPANION),
        _ => random.below(30),
    };
    (0..length).map(|_| random.word() as u8).collect()
}

/// A calendar for a sheet of so many rules, some of them damaged; and a minute to ask for, mostly at one of its edges.
fn calendar_and_minute(random: &mut Random, rules: usize) -> (Vec<u8>, u32) {
    let count = if random.chance(3) { 64 } else { random.below(8) };
    let entries = random_entries(random, rules, count);
    let bytes = if random.chance(20) { damaged_calendar(random, &entries, rules) } else { calendar(&entries) };
    let minute = match random.chance(70) {
        true => random.pick(&edges(&entries)).into(),
        false => argument(random, WEEK),
    };
    (bytes, minute)
}

/// A number of cells around what an answer needs: exact, short, none, or more.
fn cells(random: &mut Random, needed: usize) -> u16 {
    let more = needed + random.between(1, 9);
    random.pick(&[needed, needed.saturating_sub(1), needed / 2, 0, needed + 1, more, more]) as u16
}

fn random_request(random: &mut Random, call: u8) -> Request {
    let sheet = random_bytes(random);
    let [atoms, rules, negations] = open(&sheet).as_ref().map_or([3, 2, 3], Opened::check);
    let (companion, argument) = match call {
        LIST_AT | CHANGES => calendar_and_minute(random, rules),
        CHECK | LIST => (companion(random), 0),
        QUERY => (companion(random), argument(random, atoms)),
        _ => (companion(random), argument(random, 1 << negations)),
    };
    let masks = match call {
        CHECK | LIST_AT | CHANGES => [random.word() as u16, random.word() as u16],
        _ => masks(random, atoms),
    };
    let mut request = Request { call, sheet, argument, masks, companion, cells: 0, first: random.word() as u16 };
    let opened = request.opened().ok();
    let needed = opened.and_then(|opened| needed(&request, &opened)).unwrap_or_else(|| random.below(4));
    request.cells = cells(random, needed);
    request
}

/// How many cells the answer of a call fills that takes cells and is not refused.
fn needed(request: &Request, opened: &Opened) -> Option<usize> {
    let Request { call, argument, companion, .. } = request;
    match *call {
        BELIEF_SETS if *argument < 1 << opened.check()[2] => Some(opened.sets_of(*argument as u16).len()),
        LIST => Some(4 * opened.listing().views.len()),
        LIST_AT => opened.listing_at(companion, *argument).ok().map(|listing| 4 * listing.views.len()),
        CHANGES => opened.calendar(companion).ok().map(|calendar| calendar.changes().len()),
        _ => None,
    }
}

/// The number of the refusal of a request's calendar itself, where the call takes one and the sheet is accepted.
fn calendar_refused(request: &Request) -> Option<usize> {
    let opened = open(&request.sheet).ok().filter(|_| matches!(request.call, LIST_AT | CHANGES))?;
    opened.calendar(&request.companion).err().map(|refusal| refusal.number as usize)
}

/// 3,200 random requests of one call, in three streams; each refusal that the call has must occur, of a calendar too,
/// and each answer to a query.
fn many(call: u8, refusals: &[usize]) {
    let seed = seed();
    let mut random = Random::new(seed, 100 + u64::from(call));
    let context = format!("seed {seed}");
    let (mut lines, mut of_calendars) = (Vec::new(), [0; 16]);
    for count in [100, 1_500, 1_600] {
        let requests: Vec<Request> = (0..count).map(|_| random_request(&mut random, call)).collect();
        lines.extend(compare(&requests, &[], 1 << 16, &context));
        requests.iter().filter_map(calendar_refused).for_each(|number| of_calendars[number] += 1);
    }
    let numbers = by_number(&lines);
    println!("call {call}: seed {seed}, 3200 requests; accepted and refused by number {numbers:?}");
    for (number, &count) in numbers.iter().enumerate() {
        let enough = if number == 0 || refusals.contains(&number) { count >= 5 } else { count == 0 };
        assert!(enough, "refusal {number} came {count} times; {context}");
    }
    if refusals.contains(&11) {
        let enough = [1, 2, 6, 11].iter().all(|&number: &usize| of_calendars[number] >= 5);
        assert!(enough, "refusals of calendars by number {of_calendars:?}; {context}");
    }
    if call == QUERY {
        let answers = by_answer(&lines);
        println!("answers yes, no, open and none {answers:?}");
        assert!(answers.iter().all(|&count| count >= 5), "answers yes, no, open and none {answers:?}; {context}");
    }
}

#[test]
fn random_requests() {
    many(CHECK, &[1, 2, 3, 4, 5, 6, 7, 15]);
    many(VERDICT, &[1, 2, 3, 4, 5, 6, 7, 8, 13, 15]);
    many(BELIEF_SETS, &[1, 2, 3, 4, 5, 6, 7, 8, 9, 13, 15]);
    many(LIST, &[1, 2, 3, 4, 5, 6, 7, 9, 13, 15]);
    many(QUERY, &[1, 2, 3, 4, 5, 6, 7, 10, 13, 15]);
    many(LIST_AT, &[1, 2, 3, 4, 5, 6, 7, 9, 11, 12, 15]);
    many(CHANGES, &[1, 2, 3, 4, 5, 6, 7, 9, 11, 15]);
}

/// All calls mixed, the requests arriving by few bytes.
#[test]
fn requests_in_small_pieces() {
    let seed = seed();
    let mut random = Random::new(seed, 110);
    for piece in [1, 2, 3, 5, 7, 64] {
        let mut requests: Vec<Request> = (0..60).map(|i| random_request(&mut random, i % SHARE)).collect();
        requests.extend(accepted_requests(&mut random));
        requests.push(refused_request(&mut random));
        compare(&requests, &[], piece, &format!("seed {seed}, pieces of {piece}"));
    }
}

/// Each call on the kiln sheet, with day masks and a companion, which is a calendar or, for the last call, has the sheet
/// too: all are accepted.
fn kiln_requests() -> Vec<Request> {
    let companion = calendar(&[(1, 100, 200)]);
    let request = Request { sheet: kiln(), masks: [1, 2], companion, cells: 5, ..Request::default() };
    let companion = Sharing::of(&[kiln()], &[5]).bytes();
    let share = Request { call: SHARE, argument: 1, companion, ..request.clone() };
    (0..SHARE).map(|call| Request { call, ..request.clone() }).chain([share]).collect()
}

/// The longest requests that are answered, 2,048 bytes of a sheet, 12,288 of a companion and 33,000 cells, which 32,768
/// belief sets nearly fill; then short ones, in which nothing of those is left.
#[test]
fn the_largest_requests() {
    let request = |sheet: &[u8], cells| Request {
        call: BELIEF_SETS,
        sheet: sheet.to_vec(),
        companion: vec![255; MOST_COMPANION],
        cells,
        first: 3,
        ..Request::default()
    };
    let long = [kiln(), vec![0; MOST_SHEET - kiln().len()]].concat();
    let sheet = free(15);
    let mut requests: Vec<Request> = [MOST_CELLS, 32_768, 32_767].map(|cells| request(&sheet, cells)).to_vec();
    requests.push(request(&titled("8:").sheet, MOST_CELLS));
    let by_hand: String = (5..33_003).map(|cell| format!(" {cell}")).collect();
    assert_eq!(requests[3].line().to_string(), format!("2 0 2 : 1 2{by_hand}"));
    requests.push(request(&long, MOST_CELLS));
    requests.push(Request { call: CHANGES, companion: vec![0; MOST_COMPANION], ..request(&kiln(), MOST_CELLS) });
    requests.extend(kiln_requests());
    let numbers = by_number(&compare(&requests, &[], 4_096, "the largest requests"));
    assert_eq!([numbers[0], numbers[9], numbers[6]], [3 + 8, 1, 2]);
}

/// "A request that is cut off .. ends the program": nothing is printed for it.
#[test]
fn requests_cut_off() {
    let requests = kiln_requests();
    for last in [LIST, LIST_AT, SHARE].map(|call| requests[usize::from(call)].bytes()) {
        for length in 0..last.len() {
            compare(&requests[..2], &last[..length], 1 << 16, "a request cut off");
        }
    }
}

/// A request beyond the limits ends the program, of a call too that passes over what is too long: nothing is printed for
/// it, and nothing for what follows.
#[test]
fn requests_beyond_the_limits() {
    let requests = kiln_requests();
    for good in [LIST, SHARE].map(|call| &requests[usize::from(call)]) {
        let sheet = |length| Request { sheet: vec![0; length], ..good.clone() };
        let companion = |length| Request { companion: vec![0; length], ..good.clone() };
        let cells = |cells| Request { cells, ..good.clone() };
        let call = |call| Request { call, ..good.clone() };
        let bad = [
            sheet(MOST_SHEET + 1),
            sheet(65_535),
            companion(MOST_COMPANION + 1),
            companion(65_535),
            cells(MOST_CELLS + 1),
            cells(65_535),
            call(SHARE + 1),
            call(255),
        ];
        for request in bad {
            let tail = [request.bytes(), good.bytes(), good.bytes()].concat();
            compare(&requests, &tail, 1 << 16, "a request beyond the limits");
        }
    }
}
