//! The minutes of change of calendars of 64 entries, by the proved call and by the second solver: the time of each,
//! once the sheet is read, their ratio, and that both give the same minutes.

use trial::cases::sheets::many_rules;
use trial::known::kiln;
use trial::request::{Request, CHANGES};
use trial::solver::calls::open;
use trial::timing::{milliseconds, requested, timed};
use trial::write::{calendar, lettered, Entry};

/// How many copies of a request the program answers in one run.
const COPIES: usize = 400;

/// A name, a sheet and 64 entries.
type Row = (&'static str, Vec<u8>, Vec<Entry>);

fn rows() -> [Row; 3] {
    let spread = |rule: u8, i: u16| (rule, 150 * i, 150 * i + 75);
    let over_close = |rule: u8, i: u16| (rule, 10_000 - 100 * i, 50 * i);
    [
        ("64 rules, an entry each", lettered(15, &many_rules()), (0..64).map(|i| spread(i as u8, i)).collect()),
        ("64 rules, over the close", lettered(15, &many_rules()), (0..64).map(|i| over_close(i as u8, i)).collect()),
        ("2 rules, one with all 64", kiln(), (0..64).map(|i| spread(1, i)).collect()),
    ]
}

fn main() {
    println!("{:<26}{:>9}{:>13}{:>13}{:>9}", "calendar", "minutes", "proved ms", "second ms", "ratio");
    for (name, sheet, entries) in rows() {
        let companion = calendar(&entries);
        let opened = open(&sheet).expect("accepted");
        let (minutes, second) = timed(|| opened.calendar(&companion).expect("accepted").changes());
        let cells = minutes.len() as u16;
        let request = Request { call: CHANGES, sheet, companion, cells, first: 1_000, ..Request::default() };
        let [proved, second] = [requested(&request, COPIES), second].map(milliseconds);
        println!("{name:<26}{cells:>9}{proved:>13.3}{second:>13.3}{:>9.4}", proved / second);
    }
    println!("both give the same minutes of change; ratio: proved / second");
}
