//! Random calls on one allowance: sheets of many tests, of few and of none, refused ones; allowances at which a sheet or
//! the call ends; buffers that just suffice, and shorter ones.

use crate::cases::sharing::ring;
use crate::cases::sheets::{bad, beside, free};
use crate::cases::small;
use crate::damage::{damaged, too_many_negations};
use crate::heads::{sheet_of_parts, Family};
use crate::random::Random;
use crate::request::{Request, SHARE};
use crate::sharing::Sharing;
use crate::sheets::{random_sheet, Shape};
use crate::solver::calls::open;
use crate::solver::listing::Counted;
use crate::solver::sharing::shares;
use crate::solver::sheet::{read, Rule};
use crate::text::good;
use crate::write::{lettered, names_negations, rule, sheet_with, HEAD, NOT_K, PLAIN};

const SMALL: Shape = Shape { atoms: (1, 4), rules: (0, 7), negations: 4, literals: 3 };
const MIDDLE: Shape = Shape { atoms: (3, 6), rules: (3, 14), negations: 5, literals: 4 };
const PLAIN_RULES: Shape = Shape { atoms: (0, 4), rules: (0, 7), negations: 0, literals: 3 };

/// A sheet whose tests end before a guess that is ruled, and one whose tests end before one that is covered.
const LAST_IS_FREE: [&str; 2] = ["a b: a; b <- not b, M a", "a b: a <- not K b; b <- not K a"];

/// How many tests an accepted sheet has.
fn tests(sheet: &[u8]) -> usize {
    let counted = open(sheet).expect("an accepted sheet").counted();
    counted.iter().filter(|(_, counted)| matches!(counted, Counted::Tested(_))).count()
}

/// An accepted sheet of at most six negations.
pub fn studio(random: &mut Random) -> Vec<u8> {
    match random.below(12) {
        0 => all_ruled(random),
        1 => random_sheet(random, &PLAIN_RULES),
        2 => twos(random),
        3 => loops(random),
        4 => ring(random.between(1, 4)),
        5 => good(random.pick(&LAST_IS_FREE)),
        6 | 7 => two_beside(random),
        8 => sheet_of_parts(random, Family::Mixed, 5),
        _ => several_tests(random),
    }
}

/// An empty rule beside others: every guess is ruled.
fn all_ruled(random: &mut Random) -> Vec<u8> {
    let mut sheet = read(&random_sheet(random, &SMALL)).expect("an accepted sheet");
    sheet.rules.push([0; 8]);
    sheet_with(&sheet.names, &sheet.rules, &sheet.pairs)
}

/// One to three twos of atoms, each there unless the other is known: 2, 4 or 8 views.
fn twos(random: &mut Random) -> Vec<u8> {
    let atoms = 2 * random.between(1, 3);
    let rules: Vec<Rule> = (0..atoms).map(|atom| rule(&[(HEAD, 1 << atom), (NOT_K, 1 << (atom ^ 1))])).collect();
    lettered(atoms, &rules)
}

/// A ring of atoms, some of them under K and some under M: the guess of each "not K" is the view, and no guess is ruled.
fn loops(random: &mut Random) -> Vec<u8> {
    let atoms = random.between(2, 3);
    let next = |atom: usize| 1 << ((atom + 1) % atoms);
    let mut rules: Vec<Rule> = (0..atoms).map(|atom| rule(&[(HEAD, 1 << atom), (PLAIN, next(atom))])).collect();
    let some = |random: &mut Random| random.below(1 << atoms) as u16;
    rules.push(names_negations(some(random), some(random)));
    lettered(atoms, &rules)
}

/// Two small sheets as one, of at most eight atoms and six negations.
fn two_beside(random: &mut Random) -> Vec<u8> {
    let sheets = small::sheets();
    loop {
        let two = [(); 2].map(|()| sheets[random.below(sheets.len())].1.clone());
        let [one, other] = [0, 1].map(|i: usize| open(&two[i]).expect("an accepted sheet").check());
        if one[0] + other[0] <= 8 && one[2] + other[2] <= 6 {
            return beside(&two);
        }
    }
}

/// A sheet of two tests or more, if one is found soon.
fn several_tests(random: &mut Random) -> Vec<u8> {
    for _ in 0..20 {
        let shape = random.pick(&[SMALL, MIDDLE]);
        let sheet = random_sheet(random, &shape);
        if tests(&sheet) >= 2 {
            return sheet;
        }
    }
    free(2)
}

/// One to four accepted sheets, at times two or more of them equal.
pub fn studios(random: &mut Random) -> Vec<Vec<u8>> {
    let mut sheets: Vec<Vec<u8>> = (0..random.pick(&[1, 2, 2, 3, 3, 4, 4, 4])).map(|_| studio(random)).collect();
    if random.chance(20) {
        let one = sheets[random.below(sheets.len())].clone();
        sheets.iter_mut().filter(|_| random.chance(70)).for_each(|sheet| *sheet = one.clone());
    }
    sheets
}

/// A sheet that is refused.
pub fn refused_sheet(random: &mut Random) -> Vec<u8> {
    match random.below(6) {
        0 => too_many_negations(random),
        1 => bad()[random.below(bad().len())].1.clone(),
        _ => loop {
            let sheet = studio(random);
            let sheet = damaged(random, &sheet);
            if open(&sheet).is_err() {
                return sheet;
            }
        },
    }
}

/// The turn in which the sheet at a position has its last test, the sheets having so many; 0 where it has none.
pub fn last_turn(all: &[usize], position: usize) -> usize {
    let own = all[position];
    let had = |(other, &tests): (usize, &usize)| tests.min(if other <= position { own } else { own.saturating_sub(1) });
    match own {
        0 => 0,
        _ => all.iter().enumerate().map(had).sum(),
    }
}

/// Allowances at which a sheet is finished, or a test before or after; 0, 1, some between and some large ones.
pub fn allowances(random: &mut Random, all: &[usize]) -> Vec<u32> {
    let total: usize = all.iter().sum();
    let mut found = vec![0, 1, random.below(total + 1), random.below(total + 1)];
    for last in (0..all.len()).map(|position| last_turn(all, position)) {
        found.extend([last.saturating_sub(1), last, last + 1]);
    }
    let mut allowances: Vec<u32> = found.into_iter().map(|allowance| allowance as u32).collect();
    let part = random.below(total + 1) as u32;
    allowances.push(random.pick(&[65_535, 65_536, 65_536 + part, 1 << 24, 1 << 31, (1 << 31) + part, u32::MAX]));
    allowances.sort_unstable();
    allowances.dedup();
    allowances
}

/// Cells for sheets that reach so many views: as many as these fill, a few more, one less for one or two, or any.
pub fn cells(random: &mut Random, views: &[usize]) -> Vec<u16> {
    let kind = random.below(6);
    let mut cells: Vec<usize> = views.iter().map(|views| 4 * views).collect();
    let positions: Vec<usize> = (0..views.len()).filter(|&position| views[position] > 0).collect();
    match kind {
        0 => cells.iter_mut().for_each(|cells| *cells += random.below(4)),
        1 | 2 if !positions.is_empty() => (0..kind).for_each(|_| {
            let position = random.pick(&positions);
            cells[position] = 4 * views[position] - random.pick(&[1, 1, 1, 4]);
        }),
        3 => cells.iter_mut().for_each(|cells| *cells = random.below(13)),
        _ => (),
    }
    cells.into_iter().map(|cells| cells as u16).collect()
}

/// A request for sheets with so many cells each.
pub fn request(sheets: &[Vec<u8>], cells: &[u16], allowance: u32) -> Request {
    let companion = Sharing::of(sheets, cells).bytes();
    Request { call: SHARE, argument: allowance, companion, first: 50_000, ..Request::default() }
}

/// Requests for the same accepted sheets: allowances of all kinds, and some cells for what is reached with each.
pub fn accepted_requests(random: &mut Random) -> Vec<Request> {
    let sheets = studios(random);
    let tests = Sharing::of(&sheets, &[]).tests().expect("accepted sheets");
    let all: Vec<usize> = tests.iter().map(Vec::len).collect();
    let mut requests = Vec::new();
    for allowance in allowances(random, &all) {
        let views: Vec<usize> = shares(&tests, allowance).iter().map(|share| share.views.len()).collect();
        requests.push(request(&sheets, &cells(random, &views), allowance));
    }
    requests
}

/// A request that is refused before it runs: one or two sheets are, or the call is told of no sheet or of too many.
pub fn refused_request(random: &mut Random) -> Request {
    let mut sheets = studios(random);
    for _ in 0..random.between(1, 2) {
        let position = random.below(sheets.len());
        sheets[position] = refused_sheet(random);
    }
    let cells: Vec<u16> = sheets.iter().map(|_| random.pick(&[0, 0, 1, 3, 4, 9])).collect();
    let allowance = random.pick(&[0, 1, 2, 5, 40, u32::MAX]);
    let mut request = request(&sheets, &cells, allowance);
    if random.chance(25) {
        request.companion = another_number(random);
    }
    request
}

/// No sheet, or more than four, of which four are there, some of them refused.
fn another_number(random: &mut Random) -> Vec<u8> {
    let told = random.pick(&[0, 0, 5, 5, 6, 8, 128, 252, 255]);
    let count = if told == 0 { 0 } else { 4 };
    let refused = random.chance(50);
    let sheet = |random: &mut Random| if refused { refused_sheet(random) } else { studio(random) };
    let sheets: Vec<Vec<u8>> = (0..count).map(|_| sheet(random)).collect();
    Sharing { told, ..Sharing::of(&sheets, &vec![4; count]) }.bytes()
}
