//! Verdicts on sheets with many free choices, and on some others, by the proved call and by the second solver: the time
//! of each once the sheet is read, their ratio, and that both give the same verdict.

use trial::cases::sheets::{each, free, letters, over};
use trial::known::kiln;
use trial::request::{Request, VERDICT};
use trial::solver::calls::open;
use trial::timing::{milliseconds, requested, timed};

/// A name, a sheet, and how many copies of a request the program answers in one run. The guess is 0.
fn rows() -> Vec<(&'static str, Vec<u8>, usize)> {
    vec![
        ("kiln", kiln(), 40_000),
        ("one free choice", free(1), 40_000),
        ("4 free choices", free(4), 40_000),
        ("8 free choices", free(8), 4_000),
        ("12 free choices", free(12), 100),
        ("15 free choices", free(15), 10),
        ("one of each of 7 pairs", over(letters(14), "a | h; b | i; c | j; d | k; e | l; f | m; g | n"), 400),
        ("15 facts", over(letters(15), &each(letters(15), "x")), 400),
        ("no stable set", over(letters(15), "a <- not a"), 400),
    ]
}

fn main() {
    println!("{:<26}{:>7}{:>9}{:>13}{:>13}{:>9}", "sheet", "atoms", "sets", "proved ms", "second ms", "ratio");
    for (name, sheet, copies) in rows() {
        let opened = open(&sheet).expect("accepted");
        let (_, second) = timed(|| opened.verdict(0));
        let request = Request { call: VERDICT, sheet, ..Request::default() };
        let [proved, second] = [requested(&request, copies), second].map(milliseconds);
        let ([atoms, ..], sets) = (opened.check(), opened.sets_of(0).len());
        println!("{name:<26}{atoms:>7}{sets:>9}{proved:>13.4}{second:>13.4}{:>9.4}", proved / second);
    }
    println!("both give the same verdicts; ratio: proved / second");
}
