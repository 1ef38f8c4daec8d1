//! Requests of the calls of document 01, each line written by hand.

use super::rows::rows;
use super::sheets::{put, GOOD};
use super::Case;
use crate::known::{kiln, titled};
use crate::request::{Request, BELIEF_SETS, CHECK, LIST, MOST_COMPANION, MOST_SHEET, QUERY, VERDICT};
use crate::text::good;
use crate::write::{lettered, rule, K};

/// A request a line, with the line that is owed.
const ANSWERED: &str = include_str!("../../cases/hand.txt");

/// Refused sheets: the lent cells stay.
fn refused() -> Vec<Case> {
    let good = good(GOOD);
    let thirteen = lettered(13, &[rule(&[(K, 8_191)])]);
    vec![
        case("0 1 0 :", CHECK, vec![], 0, 0, 0),
        case("0 2 0 : 1", CHECK, vec![16], 0, 1, 1),
        case("1 6 3 :", VERDICT, vec![0; 4], 7, 0, 0),
        case("2 3 1 : 8 9", BELIEF_SETS, put(&good, 1, 0), 0, 2, 8),
        case("3 4 3 : 1 2 3 4 5", LIST, put(&good, 4, b'a'), 0, 5, 1),
        case("4 5 6 :", QUERY, put(&good, 6, 4), 9, 0, 0),
        case("4 7 0 :", QUERY, thirteen, 13, 0, 0),
        case("0 6 3 :", CHECK, vec![0; MOST_SHEET], 0, 0, 0),
    ]
}

/// A request, and its whole line.
pub fn case(line: &str, call: u8, sheet: Vec<u8>, argument: u32, cells: u16, first: u16) -> Case {
    let request = Request { call, sheet, argument, cells, first, ..Request::default() };
    Case { title: format!("by hand, {line}"), request, by_hand: Some(line.to_string()) }
}

fn answered(row: &str) -> Case {
    let (request, line) = row.split_once(" = ").expect(row);
    let fields: Vec<&str> = request.split(' ').collect();
    let [known, argument, cells, first] = fields[..] else { panic!("{row}") };
    let word = |field: &str| field.parse().expect(row);
    let call = line.split(' ').next().and_then(|call| call.parse().ok()).expect(row);
    let sheet = titled(&format!("{known}:")).sheet;
    case(line, call, sheet, argument.parse().expect(row), word(cells), word(first))
}

/// Lines of the kiln sheet, call by call, with a companion, which these calls don't take, and with day masks.
fn with_companions(lines: [&str; 5], masks: [u16; 2]) -> Vec<Case> {
    let companions = [1, 2, 100, 3_000, MOST_COMPANION].map(|length| vec![4; length]);
    let cases = (0..).zip(lines).map(|(call, line)| case(line, call, kiln(), 0, 1, 5));
    cases.zip(companions).map(|(case, companion)| case.beside(&companion).under(masks)).collect()
}

/// What is passed over, by the check the masks too; the other calls refuse these masks with 13.
fn passed_over() -> Vec<Case> {
    let lines = ["0 0 2 2 1 : 5", "1 0 2 1 1 1 : 5", "2 0 1 : 1", "3 9 1 : 5", "4 0 0 : 5"];
    let refused = ["0 0 2 2 1 : 5", "1 13 0 : 5", "2 13 0 : 5", "3 13 0 : 5", "4 13 0 : 5"];
    [with_companions(lines, [0, 0]), with_companions(refused, [65_535, 1])].concat()
}

pub fn cases() -> Vec<Case> {
    rows(ANSWERED).map(answered).chain(refused()).chain(passed_over()).collect()
}
