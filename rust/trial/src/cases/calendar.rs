//! Cases of the two calls that take a calendar, the list at a minute and the minutes of change, with answers by hand
//! from document 02.

use super::rows::{self, rows, word};
use super::sheets::{add, bad, put};
use super::{hand, spaced, Case};
use crate::known::{self, kiln, titled};
use crate::request::{CHANGES, LIST_AT};
use crate::write::*;

/// A request a line, with the line that is owed.
const ANSWERED: &str = include_str!("../../cases/calendar.txt");

pub fn cases() -> Vec<Case> {
    let parts = [answers, no_entries, ends, counts, extra, entries, two_wrong, sheet_first];
    let more = [fewer_negations, sixty_four_of_one, sixty_four_rules, masks];
    parts.into_iter().chain(more).flat_map(|part| part()).collect()
}

fn answers() -> Vec<Case> {
    rows(ANSWERED).map(answered).collect()
}

fn answered(row: &str) -> Case {
    let (request, line) = row.split_once(" = ").expect(row);
    let parts: Vec<&str> = request.split('/').map(str::trim).collect();
    let [sheet, entries, numbers] = parts[..] else { panic!("{row}") };
    let three_numbers = |field| rows::numbers(field).unwrap_or_else(|| panic!("{row}"));
    let [minute, cells, first] = three_numbers(numbers);
    let entry = |field| {
        let [rule, first, end] = three_numbers(field);
        (rule as u8, word(first), word(end))
    };
    let entries: Vec<Entry> = entries.split(',').filter(|entry| !entry.is_empty()).map(entry).collect();
    let call = line.split(' ').next().and_then(|call| call.parse().ok()).expect(row);
    hand::case(line, call, rows::sheet(sheet), minute, word(cells), word(first)).beside(&calendar(&entries))
}

/// The list at a minute, its line by hand.
fn list_at(title: &str, sheet: &[u8], calendar: &[u8], minute: u32, cells: usize, by_hand: &str) -> Case {
    Case::new(title, LIST_AT, sheet, minute, cells).beside(calendar).owing(by_hand)
}

/// The minutes of change, their line by hand.
fn changes(title: &str, sheet: &[u8], calendar: &[u8], cells: usize, minutes: &[u16]) -> Case {
    let by_hand = match minutes.len() {
        0 => "0 0 : ..".to_string(),
        count if count > cells => format!("9 {count} : .."),
        count => format!("0 {count} : {} ..", spaced(minutes)),
    };
    Case::new(title, CHANGES, sheet, 0, cells).beside(calendar).owing(&by_hand)
}

/// Both calls, refused so by hand. The asked minute is one too many: 12 comes later.
fn refused(title: &str, sheet: &[u8], calendar: &[u8], numbers: [u32; 2]) -> [Case; 2] {
    let by_hand = format!("{} : ..", spaced(&numbers));
    [LIST_AT, CHANGES].map(|call| Case::new(title, call, sheet, 10_080, 3).beside(calendar).owing(&by_hand))
}

/// Sheet 6: two rules.
fn six() -> Vec<u8> {
    titled("6:").sheet
}

const THREE: [Entry; 3] = [(0, 100, 200), (1, 10_079, 0), (1, 5_000, 10_079)];

/// 64 times the same entry.
fn same() -> Vec<Entry> {
    vec![(1, 300, 30); 64]
}

/// The sheets with known lists: with an empty calendar their list at any minute is the known one.
fn no_entries() -> Vec<Case> {
    let mut cases = Vec::new();
    for (turn, known) in (0..).zip(known::all()) {
        let views = known.views.concat();
        let owed = match views.len() {
            0 => format!("0 {} : ..", spaced(&known.counts)),
            _ => format!("0 {} : {} ..", spaced(&known.counts), spaced(&views)),
        };
        let minute = [0, 10_079, 577 * turn][turn as usize % 3];
        cases.push(list_at(known.title, &known.sheet, &[0], minute, views.len() + 1, &owed));
        cases.push(changes(known.title, &known.sheet, &[0], 1, &[]));
    }
    cases
}

/// Bytes that end too soon (refusal 1), the place is the calendar's length.
fn ends() -> Vec<Case> {
    let (three, many) = (calendar(&THREE), calendar(&same()));
    let ends = (0..three.len()).map(|length| &three[..length]).chain([6, 316, 320].map(|length| &many[..length]));
    ends.flat_map(|cut| refused("calendar cut off", &six(), cut, [1, cut.len() as u32])).collect()
}

/// The count (refusals 1, 2 and 6).
fn counts() -> Vec<Case> {
    let three = calendar(&THREE);
    let counts = [(0, [6, 1]), (1, [6, 6]), (2, [6, 11]), (4, [1, 16]), (64, [1, 16]), (65, [2, 0]), (255, [2, 0])];
    let mut cases: Vec<Case> = counts
        .iter()
        .flat_map(|&(count, numbers)| refused("another count", &six(), &put(&three, 0, count), numbers))
        .collect();
    let many = [same(), same()].concat();
    for (title, calendar, numbers) in [
        ("count 64 alone", vec![64], [1, 1]),
        ("count 65 alone", vec![65], [2, 0]),
        ("count 255 alone", vec![255], [2, 0]),
        ("65 entries", calendar(&many[..65]), [2, 0]),
        ("128 entries", calendar(&many), [2, 0]),
    ] {
        cases.extend(refused(title, &six(), &calendar, numbers));
    }
    cases.push(changes("64 entries", &six(), &calendar(&same()), 3, &[30, 300]));
    cases
}

/// Bytes after the last entry (refusal 6).
fn extra() -> Vec<Case> {
    let (three, many) = (calendar(&THREE), calendar(&same()));
    let more: [(&[u8], &[u8], u32); 6] = [
        (&[0], &[0], 1),
        (&[0], &[0, 100, 0, 200, 0], 1),
        (&three, &[0], 16),
        (&three, &[255; 5], 16),
        (&many, &[0], 321),
        (&many, &[0, 100, 0, 200, 0], 321),
    ];
    more.iter()
        .flat_map(|(bytes, more, place)| refused("bytes after", &six(), &add(bytes, more), [6, *place]))
        .collect()
}

/// Entries that are turned away (refusal 11), beside a sheet of two rules: a rule number not in it, a minute over
/// 10,079, equal ends.
const BAD: [Entry; 15] = [
    (2, 100, 200),
    (255, 100, 200),
    (0, 10_080, 200),
    (0, 65_535, 200),
    (0, 16_484, 200),
    (0, 100, 10_080),
    (0, 100, 65_535),
    (0, 100, 16_584),
    (0, 0, 0),
    (1, 10_079, 10_079),
    (0, 10_080, 10_080),
    (1, 256, 256),
    (128, 100, 200),
    (129, 100, 200),
    (0, 10_080, 10_081),
];

/// The last that are accepted, and their minutes of change.
const LAST: [(Entry, [u16; 2]); 4] = [
    ((1, 10_079, 200), [200, 10_079]),
    ((1, 100, 10_079), [100, 10_079]),
    ((1, 256, 257), [256, 257]),
    ((1, 256, 255), [255, 256]),
];

fn entries() -> Vec<Case> {
    let mut cases = Vec::new();
    for (turn, entry) in BAD.into_iter().enumerate() {
        let at = turn % 3;
        let mut three = THREE;
        three[at] = entry;
        cases.extend(refused("a bad entry alone", &six(), &calendar(&[entry]), [11, 1]));
        cases.extend(refused("a bad entry of three", &six(), &calendar(&three), [11, 1 + 5 * at as u32]));
    }
    for (entry, minutes) in LAST {
        cases.push(changes("an entry at the limits", &six(), &calendar(&[entry]), 3, &minutes));
    }
    let mut many = same();
    many[63] = BAD[0];
    cases.extend(refused("a bad entry, the last of 64", &six(), &calendar(&many), [11, 316]));
    many[62] = BAD[8];
    cases.extend(refused("bad entries, the last two of 64", &six(), &calendar(&many), [11, 311]));
    cases
}

/// Two things wrong: entry by entry, and of each entry first that its bytes are present.
fn two_wrong() -> Vec<Case> {
    let bad = calendar(&[BAD[0], BAD[2], (0, 100, 200)]);
    let later = calendar(&[(0, 100, 200), BAD[0], BAD[8]]);
    let rows: [(&str, Vec<u8>, [u32; 2]); 12] = [
        ("a bad entry cut off", bad[..5].to_vec(), [1, 5]),
        ("a bad entry and the next missing", bad[..6].to_vec(), [11, 1]),
        ("a bad entry and the next cut off", bad[..8].to_vec(), [11, 1]),
        ("two bad entries", bad.clone(), [11, 1]),
        ("a bad entry and bytes after", add(&bad, &[0]), [11, 1]),
        ("an entry and a bad one cut off", later[..10].to_vec(), [1, 10]),
        ("an entry, a bad one and the next missing", later[..11].to_vec(), [11, 6]),
        ("an entry and two bad ones", later.clone(), [11, 6]),
        ("an entry, two bad ones and bytes after", add(&later, &[9; 9]), [11, 6]),
        ("count 65 and a bad entry", put(&bad, 0, 65), [2, 0]),
        ("count 65 and the first entry cut off", put(&bad, 0, 65)[..3].to_vec(), [2, 0]),
        ("count 0 and a bad entry", put(&bad, 0, 0), [6, 1]),
    ];
    rows.iter().flat_map(|(title, calendar, numbers)| refused(title, &six(), calendar, *numbers)).collect()
}

/// The whole sheet is checked before the calendar.
fn sheet_first() -> Vec<Case> {
    let calendars = [vec![0], vec![], vec![65], vec![0, 0], calendar(&[(64, 0, 0)])];
    let sheets = bad().into_iter().zip(calendars.iter().cycle());
    sheets.flat_map(|((numbers, sheet), calendar)| refused("bad sheet", &sheet, calendar, numbers)).collect()
}

/// 7 counts all rules of the sheet, whatever is in force; and twelve negations, of which eleven are in force.
fn fewer_negations() -> Vec<Case> {
    let thirteen = lettered(13, &[rule(&[(HEAD, 1), (K, 4_095)]), rule(&[(HEAD, 2), (K, 4_096)])]);
    let mut cases = Vec::new();
    for entries in [&[(1, 100, 200)][..], &[(0, 100, 200), (1, 300, 400)], &[(2, 0, 0)]] {
        let refusal = "7 0 : ..";
        cases.push(list_at("13 negations, 12 in force", &thirteen, &calendar(entries), 0, 3, refusal));
        cases.push(list_at("13 negations, all in force", &thirteen, &calendar(entries), 150, 3, refusal));
        cases.push(Case::new("13 negations", CHANGES, &thirteen, 0, 3).beside(&calendar(entries)).owing(refusal));
    }
    // Each atom from K of itself: the guess of all is the view, and every other is covered.
    let rules: Vec<_> = (0..12).map(|atom| rule(&[(HEAD, 1 << atom), (K, 1 << atom)])).collect();
    let (twelve, hours) = (lettered(12, &rules), calendar(&[(5, 100, 200)]));
    cases.push(list_at("12 negations", &twelve, &hours, 199, 5, "0 1 4095 0 1 0 0 : 4095 0 0 1 .."));
    cases.push(list_at("12 negations, 11 in force", &twelve, &hours, 200, 5, "0 1 2047 0 1 0 0 : 2047 0 0 1 .."));
    cases
}

/// 64 entries of rule 0 of sheet 6, half of each hundred minutes.
fn sixty_four_of_one() -> Vec<Case> {
    let (title, sheet) = ("64 entries of one rule", six());
    let mut entries: Vec<Entry> = (0..64).map(|i| (0, 100 * i, 100 * i + 50)).collect();
    entries[20..40].reverse();
    let calendar = calendar(&entries);
    let minutes: Vec<u16> = (0..128).map(|i| 50 * i).collect();
    let mut cases: Vec<Case> = [127, 128, 130].map(|cells| changes(title, &sheet, &calendar, cells, &minutes)).to_vec();
    let (both, one) = ("0 2 1 1 2 0 0 : 1 2 2 1 2 1 1 1 ..", "0 1 1 0 1 0 0 : 1 2 2 1 ..");
    for (minute, by_hand) in
        [(0, both), (49, both), (50, one), (3_000, both), (6_299, one), (6_349, both), (6_350, one)]
    {
        cases.push(list_at(title, &sheet, &calendar, minute, 9, by_hand));
    }
    cases
}

/// 64 equal rules, a fact, each in force in its turn.
fn sixty_four_rules() -> Vec<Case> {
    let (title, sheet) = ("64 equal rules", lettered(1, &[rule(&[(HEAD, 1)]); 64]));
    let minute = |i: u8| u16::from(i);
    let turns = calendar(&(0..64).map(|i| (i, minute(i), minute(i) + 1)).collect::<Vec<_>>());
    let round: Vec<Entry> =
        (0..64).map(|i| (i, 157 * minute(i), if i < 63 { 157 * minute(i) + 157 } else { 0 })).collect();
    let (fact, nothing) = ("0 1 0 0 1 0 0 : 0 1 1 1 ..", "0 1 0 0 1 0 0 : 0 0 0 1 ..");
    let mut cases: Vec<Case> = [(0, fact), (63, fact), (64, nothing), (10_079, nothing)]
        .map(|(minute, by_hand)| list_at(title, &sheet, &turns, minute, 5, by_hand))
        .to_vec();
    cases.push(list_at(title, &sheet, &calendar(&round), 10_079, 5, fact));
    cases.push(changes(title, &sheet, &turns, 66, &(0..65).collect::<Vec<_>>()));
    cases.push(changes(title, &sheet, &turns, 64, &(0..65).collect::<Vec<_>>()));
    cases.push(changes(title, &sheet, &calendar(&round), 64, &(0..64).map(|i| 157 * i).collect::<Vec<_>>()));
    cases.push(changes(title, &sheet, &calendar(&[(63, 5, 6)]), 3, &[5, 6]));
    cases.extend(refused(title, &sheet, &calendar(&[(64, 5, 6)]), [11, 1]));
    cases
}

/// Masks, which these calls don't take.
fn masks() -> Vec<Case> {
    let (title, hours) = ("masks", calendar(&[(1, 100, 200)]));
    let list = list_at(title, &kiln(), &hours, 150, 5, "0 1 0 1 1 0 0 : 0 1 1 1 ..");
    let changes = changes(title, &kiln(), &hours, 3, &[100, 200]);
    [list, changes].map(|case| case.under([65_535, 1])).to_vec()
}
