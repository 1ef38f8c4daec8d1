//! The program `views`: lines by hand from document 01, the sheets to try, refusals, long and slow inputs, and the second
//! solver's lines.

use std::fs;
use std::io::{Read, Write};
use std::path::PathBuf;
use std::thread;
use std::time::Duration;
use trial::cases::sheets::{long_names, SEVEN};
use trial::damage::{damaged, too_many_negations};
use trial::known::{kiln, titled, KILN_LINES};
use trial::programs::{feed, output, start};
use trial::random::{seed, Random};
use trial::sheets::{random_sheet, Shape};
use trial::solver::lines::lines;
use trial::write::*;

fn printed(input: &[u8]) -> String {
    String::from_utf8(output("views", input.to_vec(), 1 << 16)).expect("views prints text")
}

/// The lists of document 01 as lines, with the belief sets of each view.
#[test]
fn known_sheets() {
    let expected = [
        ("kiln:", KILN_LINES),
        ("1:", "sheet 0 0 0\nview 0 1\nset\ntally 1 0 0 1 0 0\n"),
        ("2:", "sheet 1 1 1\nview 1 1\nset\ntally 1 1 0 1 0 0\n"),
        ("3:", "sheet 1 1 1\ntally 0 0 1 1 1 0\n"),
        ("4:", "sheet 1 1 1\nview 1 1 a\nset a\ntally 1 1 0 1 0 0\n"),
        ("5:", "sheet 1 1 1\ntally 0 0 1 1 1 0\n"),
        ("6:", "sheet 2 2 2\nview 1 1 b\nset b\nview 2 1 a\nset a\ntally 2 1 1 2 0 0\n"),
        ("7:", "sheet 1 1 0\nview 0 2\nset\nset a\ntally 1 0 0 1 0 0\n"),
        ("8:", "sheet 2 1 0\nview 0 2\nset a\nset b\ntally 1 0 0 1 0 0\n"),
        ("9:", "sheet 1 2 0\ntally 0 0 1 0 0 0\n"),
        ("10:", "sheet 3 3 1\nview 0 1\nset\ntally 1 0 0 2 0 1\n"),
    ];
    for (number, lines) in expected {
        let known = titled(number);
        assert_eq!(printed(&known.sheet), lines, "{}", known.title);
    }
}

/// A folder or file of the repository.
fn repository(path: &str) -> PathBuf {
    PathBuf::from(env!("CARGO_MANIFEST_DIR")).join("../..").join(path)
}

/// The lines of a text that are indented by four spaces, without the indent.
fn indented(text: &str) -> String {
    text.lines().filter_map(|line| line.strip_prefix("    ")).map(|line| format!("{line}\n")).collect()
}

#[test]
fn the_lines_in_the_readme() {
    let readme = fs::read_to_string(repository("README.md")).expect("README.md");
    assert!(indented(&readme).contains(KILN_LINES), "README.md shows what is printed for the kiln sheet");
}

/// The sheets to try and `examples/README.md` name each other, and under each name stands what the second solver says and
/// what is printed.
#[test]
fn the_sheets_to_try() {
    let readme = fs::read_to_string(repository("examples/README.md")).expect("examples/README.md");
    let mut blocks: Vec<(&str, String)> = readme
        .split("\n## ")
        .skip(1)
        .map(|section| section.split_once('\n').expect("lines under a heading"))
        .map(|(name, under)| (name, indented(under)))
        .collect();
    blocks.sort();
    let mut files: Vec<String> = fs::read_dir(repository("examples"))
        .expect("examples")
        .map(|file| file.expect("a file").file_name().into_string().expect("a name"))
        .filter(|name| name.ends_with(".sheet"))
        .collect();
    files.sort();
    assert_eq!(blocks.iter().map(|(name, _)| *name).collect::<Vec<_>>(), files, "headings, and files");
    for (name, block) in blocks {
        let sheet = fs::read(repository("examples").join(name)).expect(name);
        assert_eq!(block.as_bytes(), lines(&sheet), "the indented lines under {name}, and the second solver's");
        assert_eq!(block, printed(&sheet), "the indented lines under {name}, and what is printed");
    }
}

/// "The program reads up to 1,237 bytes": the longest sheet passes, one more byte or a million more are refused alike.
#[test]
fn inputs_that_are_too_long() {
    let longest = sheet_with(&long_names(), &[rule(&[(HEAD, 1), (PLAIN, 1)]); 64], &SEVEN);
    assert_eq!(longest.len(), 1_236);
    assert_eq!(printed(&longest), "sheet 15 64 0\nview 0 1\nset\ntally 1 0 0 1 0 0\n");
    let last_pair_bad = [&longest[..1_235], &[0]].concat();
    for more in [1, 2, 100, 70_000, 1_000_000] {
        let and_more = |sheet: &[u8]| printed(&[sheet, &vec![0; more]].concat());
        assert_eq!(and_more(&longest), "refused 6 1236\n", "{more} bytes more");
        assert_eq!(and_more(&last_pair_bad), "refused 15 1234\n", "{more} bytes more");
        assert_eq!(and_more(&kiln()), "refused 6 48\n", "{more} bytes more");
        assert_eq!(printed(&vec![255; 1_236 + more]), "refused 2 0\n", "{more} bytes more");
    }
}

/// The kiln sheet byte by byte, with pauses; and a long sheet in pieces.
#[test]
fn inputs_that_arrive_in_pieces() {
    let mut child = start("views");
    let mut stdin = child.stdin.take().expect("piped");
    for byte in kiln() {
        stdin.write_all(&[byte]).and_then(|()| stdin.flush()).expect("views reads");
        thread::sleep(Duration::from_millis(2));
    }
    drop(stdin);
    let output_bytes = child.wait_with_output().expect("views ends").stdout;
    assert_eq!(String::from_utf8(output_bytes).unwrap(), KILN_LINES);

    let longest = sheet_with(&long_names(), &[rule(&[(HEAD, 0x7FFF)]); 64], &SEVEN);
    for piece in [1, 7, 100, 1_235] {
        assert_eq!(output("views", longest.clone(), piece), lines(&longest), "pieces of {piece}");
    }
}

/// So many free choices over names of 12 bytes: one view, whose belief sets are all sets of atoms.
fn free_choices(atoms: usize) -> Vec<u8> {
    sheet(&long_names()[..atoms], &choices(0..atoms))
}

/// 32,768 sets, the largest output of one view.
fn largest() -> Vec<u8> {
    free_choices(15)
}

#[test]
fn the_largest_output() {
    let text = printed(&largest());
    let expected = String::from_utf8(lines(&largest())).unwrap();
    assert_eq!(text.lines().count(), 32_768 + 3);
    assert_eq!(text.lines().nth(1), Some("view 0 32768"));
    assert!(
        text == expected,
        "the first line that differs: {:?}",
        text.lines().zip(expected.lines()).find(|(a, b)| a != b)
    );
}

/// The most memory that a running process has held so far, in KiB; none once it has ended.
fn peak(process: u32) -> Option<u64> {
    let status = fs::read_to_string(format!("/proc/{process}/status")).ok()?;
    let line = status.lines().find(|line| line.starts_with("VmHWM:"))?;
    line.split_whitespace().nth(1)?.parse().ok()
}

/// The peak of `views` on a sheet when the first 128 KiB of its output were read, and when all but the last 128 KiB were.
/// A pipe holds less than that, so `views` still runs. And how many bytes it printed.
fn peaks(sheet: Vec<u8>) -> (u64, u64, usize) {
    const PART: usize = 128 * 1_024;
    let expected = lines(&sheet);
    let mut child = start("views");
    let feeder = feed(child.stdin.take().expect("piped"), sheet, 1 << 16);
    let mut stdout = child.stdout.take().expect("piped");
    let mut text = vec![0; expected.len() - PART];
    stdout.read_exact(&mut text[..PART]).expect("views prints");
    let early = peak(child.id()).expect("views still runs");
    stdout.read_exact(&mut text[PART..]).expect("views prints");
    let late = peak(child.id()).expect("views still runs");
    stdout.read_to_end(&mut text).expect("views prints");
    feeder.join().expect("standard input was fed");
    child.wait().expect("views ends");
    (early, late, text.len())
}

/// An output of over three million bytes costs at most 1 MiB more than one of about a tenth, and at most 256 KiB more near
/// its end than near its beginning.
#[test]
fn memory_does_not_grow_with_the_output() {
    let (_, small, few) = peaks(free_choices(12));
    let (early, late, many) = peaks(largest());
    println!("peak memory: {small} KiB for {few} bytes; for {many} bytes {early} KiB at first and {late} KiB at last");
    assert!(many > 3_000_000 && few < many / 9);
    assert!(late <= early + 256, "{late} KiB at last, {early} KiB at first");
    assert!(late <= small + 1_024, "{late} KiB for {many} bytes, and {small} KiB for {few}");
}

const SHAPES: [Shape; 3] = [
    Shape { atoms: (0, 4), rules: (0, 6), negations: 4, literals: 2 },
    Shape { atoms: (3, 7), rules: (3, 14), negations: 6, literals: 3 },
    Shape { atoms: (5, 9), rules: (6, 40), negations: 8, literals: 4 },
];

#[test]
fn random_sheets() {
    let seed = seed();
    let mut random = Random::new(seed, 200);
    let mut refused = 0;
    for _ in 0..600 {
        let shape = random.pick(&SHAPES);
        let mut input = random_sheet(&mut random, &shape);
        if random.chance(15) {
            input = damaged(&mut random, &input);
        } else if random.chance(3) {
            input = too_many_negations(&mut random);
        }
        let expected = String::from_utf8(lines(&input)).unwrap();
        refused += usize::from(expected.starts_with("refused"));
        assert_eq!(printed(&input), expected, "seed {seed}, sheet {}", hex(&input));
    }
    println!("random sheets: seed {seed}, 600 sheets, {refused} refused");
    assert!((30..300).contains(&refused));
}
