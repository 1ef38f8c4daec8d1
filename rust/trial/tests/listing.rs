//! The archive's function against the second solver, called as from C: the returned number and every byte of the lent
//! buffer. And what `budkarv::list` and `budkarv::list_on` make of these bytes.

mod desk;

use budkarv::{Atoms, Day, Listing, WorldView};
use desk::desk_call;
use std::time::Instant;
use trial::damage::{damaged, too_many_negations};
use trial::known::{kiln, known, titled};
use trial::large::{masked, named};
use trial::masks::{faulty_masks, random_masks, FAULTS};
use trial::pairs::pairs_of;
use trial::random::{seed, Random};
use trial::sheets::{random_names, random_sheet, Shape};
use trial::solver::calls::{list_code, open_under, Opened};
use trial::solver::refusal::Refusal;
use trial::write::*;

/// No day masks.
const NONE: [u16; 2] = [0, 0];

const SMALL: Shape = Shape { atoms: (0, 4), rules: (0, 7), negations: 4, literals: 3 };
const MIDDLE: Shape = Shape { atoms: (3, 7), rules: (2, 16), negations: 7, literals: 4 };
const DENSE: Shape = Shape { atoms: (4, 8), rules: (12, 40), negations: 8, literals: 5 };
const LARGE: Shape = Shape { atoms: (9, 12), rules: (8, 40), negations: 9, literals: 4 };

/// What a test met: sheets by the number of their refusal (0: accepted), their guesses by the six counts, calls that
/// were made, and calls that were refused with 9.
#[derive(Default)]
struct Seen {
    sheets: [usize; 16],
    guesses: [usize; 6],
    calls: usize,
    short: usize,
}

impl Seen {
    fn sheet(&mut self, opened: &Result<Opened, Refusal>) {
        match opened {
            Err(refusal) => self.sheets[refusal.number as usize] += 1,
            Ok(opened) => {
                self.sheets[0] += 1;
                let counts = opened.listing().counts;
                self.guesses.iter_mut().zip(counts).for_each(|(sum, count)| *sum += usize::from(count));
            }
        }
    }
}

/// The lengths of the buffers for a sheet: exact, a word or a byte short, a byte more, empty, long.
fn lengths(random: &mut Random, opened: &Result<Opened, Refusal>) -> Vec<usize> {
    let views = opened.as_ref().map_or_else(|_| random.below(3), |opened| opened.listing().views.len());
    let exact = 12 + 8 * views;
    vec![exact, exact - 2, exact - 1, exact + 1, 0, exact + random.between(2, 60)]
}

/// A sheet and day masks.
type Asked = (Vec<u8>, [u16; 2]);

fn shown((sheet, masks): &Asked) -> String {
    format!("seed {}, sheet {}, masks {masks:?}", seed(), hex(sheet))
}

/// Calls both on a buffer filled with a pattern, and compares all of it.
fn compare(asked: &Asked, opened: &Result<Opened, Refusal>, length: usize, salt: u8) -> u32 {
    let before: Vec<u8> = (0..length).map(|i| (i as u8).wrapping_mul(37) ^ salt).collect();
    let (mut ours, mut theirs) = (before.clone(), before.clone());
    let expected = list_code(opened, &mut theirs);
    let code = desk_call(&asked.0, asked.1, &mut ours);
    let place = || format!("{length} bytes lent, {}", shown(asked));
    assert_eq!(code, expected, "the returned number; {}", place());
    assert_eq!(ours, theirs, "the lent bytes; {}", place());
    if code != 0 {
        assert_eq!(ours, before, "a refused call keeps every byte; {}", place());
    }
    code
}

/// The Rust call: without masks the one that takes none.
fn rust_call((sheet, masks): &Asked) -> Result<Listing, budkarv::Refusal> {
    let [in_atoms, out_atoms] = masks.map(Atoms::from_bits);
    match *masks {
        NONE => budkarv::list(sheet),
        _ => budkarv::list_on(sheet, Day { in_atoms, out_atoms }),
    }
}

/// Compares the answer of the Rust call.
fn compare_types(asked: &Asked, opened: &Result<Opened, Refusal>) {
    let ours = rust_call(asked).map(|Listing { counts: c, views }| {
        let words = |view: &WorldView| [view.guess, view.known.bits(), view.possible.bits(), view.sets];
        ([c.views, c.covered, c.ruled, c.tested, c.empty, c.other], views.iter().map(words).collect::<Vec<_>>())
    });
    let theirs = opened.as_ref().map(|opened| {
        let listing = opened.listing();
        (listing.counts, listing.views.iter().map(|view| view.words()).collect())
    });
    let ours = ours.map_err(|refusal| Refusal { number: refusal.number(), place: refusal.place() });
    assert_eq!(ours.as_ref(), theirs.as_ref().map_err(|&refusal| refusal), "{}", shown(asked));
}

fn compare_all(asked: &Asked, random: &mut Random, seen: &mut Seen) {
    let opened = open_under(&asked.0, asked.1);
    seen.sheet(&opened);
    compare_types(asked, &opened);
    for length in lengths(random, &opened) {
        let code = compare(asked, &opened, length, random.word() as u8);
        seen.calls += 1;
        seen.short += usize::from(code >> 16 == 9);
    }
}

/// Compares so many sheets without masks, and says what they were.
fn run(title: &str, stream: u64, count: usize, mut next: impl FnMut(&mut Random) -> Vec<u8>) -> Seen {
    run_under(title, stream, count, |random| (next(random), NONE))
}

/// The same under masks.
fn run_under(title: &str, stream: u64, count: usize, mut next: impl FnMut(&mut Random) -> Asked) -> Seen {
    let seed = seed();
    let mut random = Random::new(seed, stream);
    let mut seen = Seen::default();
    let start = Instant::now();
    for _ in 0..count {
        let asked = next(&mut random);
        compare_all(&asked, &mut random, &mut seen);
    }
    let Seen { sheets, guesses, calls, short } = &seen;
    println!(
        "{title}: seed {seed}, {count} sheets (accepted, refused by number: {sheets:?}), \
         {calls} calls ({short} refused with 9), \
         guesses (views, covered, ruled, tested, empty, other: {guesses:?}), {:.1} s",
        start.elapsed().as_secs_f64()
    );
    seen
}

fn sheets_of(title: &str, stream: u64, count: usize, shape: Shape) {
    let seen = run(title, stream, count, |random| random_sheet(random, &shape));
    assert_eq!(seen.sheets[0], count, "every sheet is accepted");
    assert!(seen.guesses.iter().all(|&guesses| guesses > count / 20), "every count occurs: {:?}", seen.guesses);
}

#[test]
fn small_sheets() {
    sheets_of("small sheets", 1, 7_000, SMALL);
}

#[test]
fn middle_sheets() {
    sheets_of("middle sheets", 2, 5_000, MIDDLE);
}

#[test]
fn dense_sheets() {
    sheets_of("dense sheets", 3, 1_500, DENSE);
}

#[test]
fn large_sheets() {
    sheets_of("large sheets", 4, 250, LARGE);
}

#[test]
fn damaged_sheets() {
    let seen = run("damaged sheets", 5, 8_000, |random| {
        if random.chance(5) {
            return too_many_negations(random);
        }
        let shape = random.pick(&[SMALL, MIDDLE]);
        let sheet = random_sheet(random, &shape);
        damaged(random, &sheet)
    });
    let occurs = |number: usize| seen.sheets[number] >= 100;
    assert!((1..=7).chain([15]).all(occurs), "refusals 1 to 7 and 15 all occur: {:?}", seen.sheets);
    assert!(seen.short >= 100, "refusal 9 occurs: {}", seen.short);
}

/// Sheets under masks, some damaged; one in seven of the masks has one thing wrong.
#[test]
fn sheets_under_masks() {
    let seen = run_under("sheets under masks", 10, 6_000, |random| {
        let shape = random.pick(&[SMALL, MIDDLE, DENSE]);
        let sheet = random_sheet(random, &shape);
        let atoms = usize::from(sheet[0]);
        let fault = random.pick(&FAULTS);
        let faulty = random.below(7) == 0 && atoms > 0;
        let masks = if faulty { faulty_masks(random, atoms, fault) } else { random_masks(random, atoms) };
        (if random.chance(10) { damaged(random, &sheet) } else { sheet }, masks)
    });
    assert!([0, 1, 5, 6, 13, 15].iter().all(|&number| seen.sheets[number] >= 20), "refusals: {:?}", seen.sheets);
    assert!(seen.guesses.iter().all(|&guesses| guesses > 300), "every count occurs: {:?}", seen.guesses);
    assert!(seen.short >= 100, "refusal 9 occurs: {}", seen.short);
}

#[test]
fn known_sheets() {
    let mut sheets = known().into_iter().map(|known| known.sheet).chain([kiln()]);
    run("known sheets", 6, 11, |_| sheets.next().expect("eleven sheets"));
}

/// The sheets of the benchmark, up to 15 atoms, 64 rules, twelve negations and 81 views.
#[test]
fn named_sheets() {
    let sheets = named();
    let mut left = sheets.iter().map(|(_, sheet)| sheet.clone());
    let seen = run("named sheets", 9, sheets.len(), |_| left.next().expect("as many sheets"));
    assert_eq!(seen.sheets[0], sheets.len(), "every sheet is accepted");
    let mut left = masked().into_iter().map(|(_, sheet, masks)| (sheet, masks));
    let seen = run_under("named sheets under masks", 11, masked().len(), |_| left.next().expect("as many sheets"));
    assert_eq!(seen.sheets[0], masked().len(), "every sheet and all masks are accepted");
}

/// One sheet for each refusal of the desk call, by hand: the number, and every byte kept whatever the buffer's length.
#[test]
fn refused_calls_keep_every_byte() {
    let thirteen = lettered(13, &[rule(&[(K, 0x1FFF)])]);
    let refused: [(u32, Vec<u8>); 12] = [
        (1 << 16 | 2, vec![1, 1]),
        (1 << 16 | 2, vec![0, 0]),
        (2 << 16, vec![16]),
        (2 << 16 | 2, vec![0, 0, 8]),
        (3 << 16 | 1, vec![1, 0, 0]),
        (4 << 16 | 3, sheet(&["a", "a"], &[])),
        (5 << 16 | 4, lettered(1, &[rule(&[(HEAD, 2)])])),
        (6 << 16 | 3, vec![0; 4]),
        (7 << 16, thirteen),
        (15 << 16 | 7, lettered_with(2, &[], &[[0, 2]])),
        (15 << 16 | 11, lettered_with(3, &[], &[[0, 1], [2, 1]])),
        (9 << 16 | 2, titled("6:").sheet),
    ];
    for (code, sheet) in refused {
        refused_so(code, &(sheet.clone(), NONE));
        if code >> 16 != 9 {
            refused_so(code, &(sheet, [65_535, 65_535]));
        }
    }
    let six = || titled("6:").sheet;
    for masks in [[4, 0], [0, 4], [32_768, 0], [0, 32_768], [1, 1], [3, 2], [3, 3]] {
        refused_so(13 << 16, &(six(), masks));
    }
    refused_so(13 << 16, &(vec![0; 3], [1, 0]));
    refused_so(13 << 16, &(vec![0; 3], [0, 1]));
}

/// Buffers of less than 28 bytes, which are too short for two views.
fn refused_so(code: u32, asked: &Asked) {
    for length in 0..28 {
        let mut out: Vec<u8> = (0..length).map(|i| 200 - i).collect();
        let before = out.clone();
        assert_eq!(desk_call(&asked.0, asked.1, &mut out), code, "{}, {length} bytes", shown(asked));
        assert_eq!(out, before, "{}, {length} bytes", shown(asked));
    }
}

/// Sheet 6 by hand: six counts and two records in 28 bytes, and an odd byte more, which is kept.
#[test]
fn words_in_bytes() {
    let mut out = [0xEE; 29];
    assert_eq!(desk_call(&titled("6:").sheet, NONE, &mut out), 0);
    assert_eq!(out[..12], [2, 0, 1, 0, 1, 0, 2, 0, 0, 0, 0, 0]);
    assert_eq!(out[12..], [1, 0, 2, 0, 2, 0, 1, 0, 2, 0, 1, 0, 1, 0, 1, 0, 0xEE]);
}

/// The same with a in, and with a out: one view, by hand, and the bytes after its record are kept.
#[test]
fn words_in_bytes_under_masks() {
    for (masks, record) in [([1, 0], [2, 0, 1, 0, 1, 0, 1, 0]), ([0, 1], [1, 0, 2, 0, 2, 0, 1, 0])] {
        let mut out = [0xEE; 22];
        assert_eq!(desk_call(&titled("6:").sheet, masks, &mut out), 0);
        assert_eq!(out[..12], [1, 0, 1, 0, 2, 0, 1, 0, 0, 0, 0, 0], "{masks:?}");
        assert_eq!((&out[12..20], &out[20..]), (&record[..], &[0xEE; 2][..]), "{masks:?}");
    }
}

/// "a ← M a" and "b ← M b", a and b being opposites: by hand, two views, and an odd byte more, which is kept.
#[test]
fn opposites_as_bytes() {
    let from_m = |atom| rule(&[(HEAD, atom), (M, atom)]);
    let mut out = [0xEE; 29];
    assert_eq!(desk_call(&lettered_with(2, &[from_m(1), from_m(2)], &[[1, 0]]), NONE, &mut out), 0);
    assert_eq!(out[..12], [2, 0, 1, 0, 1, 0, 2, 0, 0, 0, 0, 0]);
    assert_eq!(out[12..], [1, 0, 1, 0, 1, 0, 1, 0, 2, 0, 2, 0, 2, 0, 1, 0, 0xEE]);
}

/// 15 atoms with names of 12 bytes, 64 rules, and no pairs, one or seven; twelve negations, or thirteen, which are
/// refused.
#[test]
fn limit_sheets() {
    for (pairs, stream, count) in [(0, 7, 6), (1, 12, 6), (7, 13, 2)] {
        let title = format!("limit sheets, pairs: {pairs}");
        let seen = run(&title, stream, count, |random| limit_sheet(random, 0b11_1111, 0b11_1111, pairs));
        assert_eq!(seen.sheets[0], count);
    }
    let seen = run("thirteen negations", 8, 6, |random| limit_sheet(random, 0b11_1111, 0b111_1111, 7));
    assert_eq!(seen.sheets[7], 6);
}

/// Random rules over the atoms, of which these stand under K and under M, and so many pairs; the first rule, which is
/// always true, names all of these.
fn limit_sheet(random: &mut Random, known: u16, possible: u16, pairs: usize) -> Vec<u8> {
    let mut rules = vec![names_negations(known, possible)];
    while rules.len() < 64 {
        let bit = |random: &mut Random| 1 << random.below(15);
        let subjective = random.pick(&[K, NOT_K, M, NOT_M, PLAIN]);
        let rule = rule(&[
            (HEAD, bit(random) | if random.chance(20) { bit(random) } else { 0 }),
            (random.pick(&[PLAIN, NOT]), bit(random)),
            (subjective, bit(random) & if subjective < M { known } else { possible }),
        ]);
        rules.push(rule);
    }
    let pairs = pairs_of(random, 15, pairs);
    sheet_with(&long_names(random), &rules, &pairs)
}

fn long_names(random: &mut Random) -> Vec<Vec<u8>> {
    let mut names = random_names(random, 15, 11);
    for (name, last) in names.iter_mut().zip(b'a'..) {
        name.resize(11, b'_');
        name.push(last);
    }
    names
}
