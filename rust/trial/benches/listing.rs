//! The proved listing and the second solver on named sheets, some hard, some under day masks: the time of each, their
//! ratio, and that both give the same listing. Then four sheets on one allowance that is large enough, and their four
//! lists one after the other, both by the program `calls`.

use budkarv::{Atoms, Day};
use trial::cases::sheets::put;
use trial::hard::{hard, quick};
use trial::large::{fours, masked, named};
use trial::request::{Request, LIST, SHARE};
use trial::sharing::Sharing;
use trial::solver::calls::{open, open_under};
use trial::timing::{beyond, milliseconds, timed};

fn main() {
    listings();
    shared();
}

fn listings() {
    println!(
        "{:<27}{:>6}{:>7}{:>4}{:>8}{:>7}{:>13}{:>13}{:>9}",
        "sheet", "atoms", "rules", "k", "tested", "views", "proved ms", "second ms", "ratio"
    );
    let without_masks = named().into_iter().map(|(name, sheet)| (name, sheet, [0, 0]));
    for (name, sheet, masks) in without_masks.chain(masked()).chain(hard()).chain(quick()) {
        let [in_atoms, out_atoms] = masks.map(Atoms::from_bits);
        let (ours, proved) = timed(|| budkarv::list_on(&sheet, Day { in_atoms, out_atoms }).expect("accepted"));
        let (theirs, second) = timed(|| open_under(&sheet, masks).expect("accepted").listing().clone());
        let words: Vec<[u16; 4]> =
            ours.views.iter().map(|view| [view.guess, view.known.bits(), view.possible.bits(), view.sets]).collect();
        let expected: Vec<[u16; 4]> = theirs.views.iter().map(|view| view.words()).collect();
        let c = ours.counts;
        let counts = [c.views, c.covered, c.ruled, c.tested, c.empty, c.other];
        assert_eq!((counts, &words), (theirs.counts, &expected), "{name}: the two give different listings");
        let [atoms, rules, negations] = open(&sheet).expect("accepted").check();
        let (proved, second) = (milliseconds(proved), milliseconds(second));
        let (tested, views, ratio) = (c.tested, words.len(), proved / second);
        println!(
            "{name:<27}{atoms:>6}{rules:>7}{negations:>4}{tested:>8}{views:>7}{proved:>13.3}{second:>13.3}{ratio:>9.4}"
        );
    }
    println!("on every sheet both give the same counts and world views; ratio: proved / second");
}

/// The time of four lists, beyond four that are refused at the first byte of the sheet.
fn lists(sheets: &[Vec<u8>], cells: &[u16], copies: usize) -> f64 {
    let list = |(sheet, &cells): (&Vec<u8>, &u16)| {
        let sheet = sheet.clone();
        Request { call: LIST, sheet, cells, first: 1_000, ..Request::default() }
    };
    let lists: Vec<Request> = sheets.iter().zip(cells).map(list).collect();
    let refused: Vec<Request> =
        lists.iter().map(|list| Request { sheet: put(&list.sheet, 0, 255), ..list.clone() }).collect();
    milliseconds(beyond(&lists, &refused, copies))
}

/// The time of the call on all four, beyond the same that is refused for their number.
fn share(sheets: &[Vec<u8>], cells: &[u16], copies: usize) -> f64 {
    let companion = Sharing::of(sheets, cells).bytes();
    let share = Request { call: SHARE, argument: u32::MAX, companion, first: 1_000, ..Request::default() };
    let refused = Request { companion: put(&share.companion, 0, 5), ..share.clone() };
    milliseconds(beyond(&[share], &[refused], copies))
}

fn shared() {
    println!("\n{:<30}{:>7}{:>7}{:>13}{:>13}{:>9}", "four sheets", "tests", "views", "lists ms", "shared ms", "ratio");
    for (name, sheets, copies) in fours() {
        let tests: usize = Sharing::of(&sheets, &[]).tests().expect("accepted").iter().map(Vec::len).sum();
        let cells = [0, 1, 2, 3].map(|i: usize| 4 * open(&sheets[i]).expect("accepted").listing().views.len() as u16);
        let views: u16 = cells.iter().sum::<u16>() / 4;
        let (listed, shared) = (lists(&sheets, &cells, copies), share(&sheets, &cells, copies));
        println!("{name:<30}{tests:>7}{views:>7}{listed:>13.3}{shared:>13.3}{:>9.4}", shared / listed);
    }
    println!("both give the same world views; ratio: shared / lists");
}
