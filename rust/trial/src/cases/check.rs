//! Limit cases of the sheet check, with answers by hand: the refusal's number and place, or 0, atoms, rules and k.

use super::sheets::{add, long_names, longest, put, FULL};
use super::{spaced, Case};
use crate::request::{CHECK, MOST_SHEET};
use crate::solver::sheet::Rule;
use crate::text::good;
use crate::write::*;

const NOTHING: Rule = [0; 8];

pub fn case(title: impl Into<String>, sheet: Vec<u8>, numbers: &[u32]) -> Case {
    Case::new(&title.into(), CHECK, &sheet, 0, 0).owing(&format!("{} :", spaced(numbers)))
}

pub fn cases() -> Vec<Case> {
    let parts = [counts, ends, tables, name_bytes, bits, good_bits, extra, negations, two_wrong_names];
    parts.into_iter().flat_map(|part| part()).chain(two_wrong_rules()).collect()
}

/// Lengths of names at 1 and 4, the rule count at 8, rules at 9 and 25, the pair count at 41, 42 bytes.
fn two() -> Vec<u8> {
    sheet(&["ab", "cde"], &[[3; 8]; 2])
}

/// Sizes and counts (refusal 2).
fn counts() -> Vec<Case> {
    let letters: Vec<[u8; 2]> = (0..255).map(|i| [b'a' + i / 26, b'a' + i % 26]).collect();
    vec![
        case("empty input", vec![], &[1, 0]),
        case("shortest sheet", vec![0, 0, 0], &[0, 0, 0, 0]),
        case("one byte 0", vec![0], &[1, 1]),
        case("two bytes 0", vec![0, 0], &[1, 2]),
        case("one byte 15", vec![15], &[1, 1]),
        case("one byte 16", vec![16], &[2, 0]),
        case("one byte 255", vec![255], &[2, 0]),
        case("one byte 1", vec![1], &[1, 1]),
        case("a length 0", vec![1, 0], &[3, 1]),
        case("a length 13", vec![1, 13], &[3, 1]),
        case("a bad byte of two", vec![1, 2, b'A'], &[1, 3]),
        case("15 atoms", lettered(15, &[]), &[0, 15, 0, 0]),
        case("16 atoms", lettered(16, &[]), &[2, 0]),
        case("255 atoms", sheet(&letters, &[]), &[2, 0]),
        case("64 rules", lettered(0, &[NOTHING; 64]), &[0, 0, 64, 0]),
        case("65 rules", lettered(0, &[NOTHING; 65]), &[2, 1]),
        case("255 rules, the last ones cut off", lettered(0, &[NOTHING; 255])[..MOST_SHEET].to_vec(), &[2, 1]),
        case("64 rules after 15 names", lettered(15, &[NOTHING; 64]), &[0, 15, 64, 0]),
        case("65 rules after 15 names", lettered(15, &[NOTHING; 65]), &[2, 31]),
        case("rule count 255 after 1 name", put(&lettered(1, &[]), 3, 255), &[2, 3]),
        case("rule count 65 after 15 long names", put(&longest()[..197], 196, 65), &[2, 196]),
        case("longest sheet", longest(), &[0, 15, 64, 12]),
        case("longest sheet and one byte", add(&longest(), &[0]), &[6, 1236]),
        case("longest sheet within 2000 bytes", add(&longest(), &[0; 764]), &[6, 1236]),
        case("shortest sheet within 2000 bytes", vec![0; 2000], &[6, 3]),
        case("two names and two rules", two(), &[0, 2, 2, 4]),
    ]
}

/// Bytes that end too soon (refusal 1), the place is the length: `two` anywhere, the longest sheet in its last name,
/// before its last rule, in it, and anywhere in its pairs.
fn ends() -> Vec<Case> {
    let (two, longest) = (two(), longest());
    let of_longest = [195, 1205, 1220].into_iter().chain(1221..1236).map(|length| &longest[..length]);
    let ends = (0..two.len()).map(|length| &two[..length]).chain(of_longest);
    ends.map(|sheet| case(format!("end at {}", sheet.len()), sheet.to_vec(), &[1, sheet.len() as u32])).collect()
}

/// Names and the answer to a sheet of them, without rules: lengths of names (refusal 3), equal names (refusal 4), names
/// that are neither, two things wrong.
const NAMES: &str = "\
abcdefghijklm a = 3 1 / a b c d e f g h i j k l m n zabcdefghijkl = 3 29
a a = 4 3 / z_0123456789 z_0123456789 = 4 14 / a b c d e f g h i j k l m n a = 4 29 / a b a = 4 5 / a b b a = 4 5
a z m = 0 3 0 0 / a0 z9 a_ z09_az b__ = 0 5 0 0 / z_0123456789 abcdefghijkl = 0 2 0 0
abcdefghijkl abcdefghijkm = 0 2 0 0 / abc bbc = 0 2 0 0 / ab abc = 0 2 0 0 / abc ab = 0 2 0 0 / ab c a bc = 0 4 0 0
a A a = 3 4 / a a A = 4 3 / bA bA = 3 3 / a _b = 3 4 / a b9_- = 3 7
a ab a = 4 6 / abcdefghijk_ abcdefghijk9 a = 0 3 0 0 / kiln Kiln = 3 7 / kiln b kiln = 4 8";

/// Sheets as text and the answers: which literals make one negation.
const ONE_OR_TWO: &str = "\
a: <- K a, not K a = 0 1 1 1 / a: <- M a, not M a = 0 1 1 1 / a: <- K a, M a = 0 1 1 2
a: <- not K a, not M a = 0 1 1 2 / a: <- K a; <- not K a = 0 1 2 1
a: <- K a; <- not M a = 0 1 2 2 / a b: <- K a, not K b = 0 2 1 2";

/// The rows of such a table.
fn table(text: &'static str, sheet: impl Fn(&str) -> Vec<u8>) -> Vec<Case> {
    let rows = text.split(['/', '\n']).map(|row| row.split_once(" = ").expect(row));
    let numbers = |answer: &str| -> Vec<u32> { answer.split_whitespace().map(|n| n.parse().expect(n)).collect() };
    rows.map(|(text, answer)| case(text.trim(), sheet(text), &numbers(answer))).collect()
}

fn tables() -> Vec<Case> {
    let names = table(NAMES, |names| sheet(&names.split_whitespace().collect::<Vec<_>>(), &[]));
    let mut equal = long_names();
    equal[14] = equal[13].clone();
    let (a, g) = ("a".repeat(255), "g".repeat(255));
    let more = vec![
        case("first length 0", sheet(&["", "a"], &[]), &[3, 1]),
        case("first length 255", sheet(&[a.as_str(), "b"], &[]), &[3, 1]),
        case("last length 0", sheet(&["abc", "def", ""], &[]), &[3, 9]),
        case("last length 255", sheet(&["abc", "def", &g], &[]), &[3, 9]),
        case("last two of 15 long names equal", sheet(&equal, &[]), &[4, 183]),
    ];
    [names, table(ONE_OR_TWO, good), more].concat()
}

/// Bytes of names (refusal 3): places in "abc def ghi", whose lengths stand at 1, 5 and 9, with bad bytes for each.
const BAD_BYTES: [(usize, &[u8]); 5] = [
    (2, &[b'0', b'A', b'_', 96, 123, 225]),
    (3, &[0, 47, 58, 94, 96, 123, 255]),
    (4, &[58]),
    (10, &[b'9', b'_', 123]),
    (12, &[0, 47, 58, 94, 96, 123, 255]),
];

fn name_bytes() -> Vec<Case> {
    let three = sheet(&["abc", "def", "ghi"], &[]);
    let names = &longest()[..197];
    let mut cases = vec![
        case("last byte of first long name 94", put(names, 13, 94), &[3, 13]),
        case("first byte of last long name 48", put(names, 184, 48), &[3, 184]),
        case("last byte of last long name 47", put(names, 195, 47), &[3, 195]),
        case("last byte of the input a bad one of a name", put(&three[..13], 12, 64), &[3, 12]),
        case("two bad bytes in one name", put(&put(&three, 4, 0), 3, 0), &[3, 3]),
        case("bad bytes in two names", put(&put(&three, 10, 0), 8, 0), &[3, 8]),
    ];
    for (place, bytes) in BAD_BYTES {
        cases.extend(bytes.iter().map(|&byte| {
            case(format!("byte {byte} at {place} in a name"), put(&three, place, byte), &[3, place as u32])
        }));
    }
    cases
}

/// Bits at and above the atom count (refusal 5): for each count, in masks 0 to 7, a bit and the mask's place.
const BAD_BITS: [(usize, [(u16, u32); 8]); 5] = [
    (0, [(0, 2), (1, 4), (0, 6), (8, 8), (15, 10), (0, 12), (7, 14), (15, 16)]),
    (1, [(1, 4), (8, 6), (15, 8), (1, 10), (2, 12), (7, 14), (1, 16), (14, 18)]),
    (2, [(15, 6), (2, 8), (3, 10), (9, 12), (2, 14), (8, 16), (7, 18), (2, 20)]),
    (8, [(8, 18), (9, 20), (8, 22), (15, 24), (14, 26), (8, 28), (10, 30), (8, 32)]),
    (15, [(15, 32), (15, 34), (15, 36), (15, 38), (15, 40), (15, 42), (15, 44), (15, 46)]),
];

fn bits() -> Vec<Case> {
    let mut last = [NOTHING; 64];
    last[63] = rule(&[(NOT_M, 32_768)]);
    let mut cases = vec![
        case("2 atoms mask 3 of 7", lettered(2, &[rule(&[(NOT_NOT, 7)])]), &[5, 12]),
        case("15 atoms mask 2 of 65535", lettered(15, &[rule(&[(NOT, 65_535)])]), &[5, 36]),
        case("bad bit in mask 4 of the second rule", lettered(1, &[rule(&[(HEAD, 1)]), rule(&[(K, 2)])]), &[5, 28]),
        case("bad bit in second rule", lettered(2, &[NOTHING, rule(&[(HEAD, 4)])]), &[5, 22]),
        case("bad bit in last mask of 64 rules", lettered(15, &last), &[5, 1054]),
        case("bad bit in last mask of longest sheet", put(&longest(), 1220, 128), &[5, 1219]),
    ];
    for (atoms, masks) in BAD_BITS {
        cases.extend(masks.iter().enumerate().map(|(mask, &(bit, place))| {
            let sheet = lettered(atoms, &[rule(&[(mask, 1 << bit)])]);
            case(format!("atoms {atoms} mask {mask} bit {bit}"), sheet, &[5, place])
        }));
    }
    cases
}

fn good_bits() -> Vec<Case> {
    let mut first_six = [255; 8];
    first_six[6..].fill(0);
    vec![
        case("15 atoms mask 1 of 32767", lettered(15, &[rule(&[(PLAIN, 32_767)])]), &[0, 15, 1, 0]),
        case("1 atom full masks", lettered(1, &[[1; 8]]), &[0, 1, 1, 2]),
        case("2 atoms full masks", lettered(2, &[[3; 8]]), &[0, 2, 1, 4]),
        case("8 atoms full masks", lettered(8, &[first_six]), &[0, 8, 1, 8]),
        case("9 atoms high byte", lettered(9, &[rule(&[(HEAD, 256), (NOT_M, 511)])]), &[0, 9, 1, 9]),
        case("15 atoms full masks", lettered(15, &[FULL]), &[0, 15, 1, 0]),
    ]
}

/// Bytes after the last pair (refusal 6), here of sheets without pairs.
fn extra() -> Vec<Case> {
    let one = lettered(2, &[rule(&[(HEAD, 3)])]);
    vec![
        case("one byte after shortest sheet", vec![0; 4], &[6, 3]),
        case("a rule after shortest sheet", vec![0; 19], &[6, 3]),
        case("one byte after names", add(&lettered(1, &[]), &[255]), &[6, 5]),
        case("a rule after names", add(&lettered(1, &[]), &lettered(1, &[rule(&[(HEAD, 1)])])[4..20]), &[6, 5]),
        case("one byte after rules", add(&one, &[1]), &[6, 23]),
        case("a rule after rules", add(&one, &one[6..22]), &[6, 23]),
        case("many bytes after rules", add(&two(), &b"extra".repeat(60)), &[6, 42]),
        case("a 65th rule after 64", add(&lettered(0, &[NOTHING; 64]), &[0; 16]), &[6, 1027]),
    ]
}

/// Negations (refusal 7).
fn negations() -> Vec<Case> {
    let twelve = [rule(&[(K, 4095)]), rule(&[(NOT_K, 4095)])].repeat(10);
    let mut last = [rule(&[(K, 4095)]); 64];
    last[63] = rule(&[(M, 2048)]);
    let over = |mask, atoms: std::ops::Range<usize>| -> Vec<Rule> { atoms.map(|i| rule(&[(mask, 1 << i)])).collect() };
    let mut cases = vec![
        case("6 atoms all negations", lettered(6, &[rule(&[(K, 63), (M, 63)])]), &[0, 6, 1, 12]),
        case("7 atoms 13 negations", lettered(7, &[rule(&[(K, 127), (NOT_M, 63)])]), &[7, 0]),
        case("8 atoms 16 negations", lettered(8, &[rule(&[(NOT_K, 255), (M, 255)])]), &[7, 0]),
        case("15 atoms 30 negations", lettered(15, &[[32_767; 8]]), &[7, 0]),
        case("12 negations over 12 rules", lettered(15, &over(K, 3..15)), &[0, 15, 12, 12]),
        case("13 negations over 13 rules", lettered(15, &over(NOT_M, 0..13)), &[7, 0]),
        case("12 negations repeated in 20 rules", lettered(12, &twelve), &[0, 12, 20, 12]),
        case("13th negation in last of 64 rules", lettered(12, &last), &[7, 0]),
    ];
    for mask in K..=NOT_M {
        cases.extend([
            case(format!("12 negations in mask {mask}"), lettered(12, &[rule(&[(mask, 4095)])]), &[0, 12, 1, 12]),
            case(format!("13 negations in mask {mask}"), lettered(13, &[rule(&[(mask, 8191)])]), &[7, 0]),
        ]);
    }
    cases
}

/// Two things wrong, the first of them in a name: the order of checks.
fn two_wrong_names() -> Vec<Case> {
    let sixteen = [vec!["", "A", "A"], vec![""; 13]].concat();
    vec![
        case("length 13 and name cut off", b"\x01\x0dabc".to_vec(), &[3, 1]),
        case("length 255 at the end", vec![1, 255], &[3, 1]),
        case("length 0 at the end", b"\x02\x01a\x00".to_vec(), &[3, 3]),
        case("bad byte and name cut off", b"\x01\x039a".to_vec(), &[1, 4]),
        case("bad byte and next name cut off", b"\x02\x019\x05".to_vec(), &[3, 2]),
        case("equal name cut off", b"\x02\x02ab\x02a".to_vec(), &[1, 6]),
        case("equal name and end", b"\x03\x01a\x01a".to_vec(), &[4, 3]),
        case("equal name and rule count 65", put(&sheet(&["a", "a"], &[]), 5, 65), &[4, 3]),
        case("bad byte and rule count 65", put(&sheet(&["a", "b_", "cC"], &[]), 9, 65), &[3, 8]),
        case("16 atoms and bad names", sheet(&sixteen, &[]), &[2, 0]),
    ]
}

/// Two things wrong, the first of them after the names.
fn two_wrong_rules() -> Vec<Case> {
    let bad = |mask| rule(&[(mask, 2)]);
    let one = |rules: &[Rule]| lettered(1, rules);
    let thirteen = rule(&[(K, 8191)]);
    let twelve = rule(&[(K, 63), (M, 31), (NOT_M, 33)]);
    vec![
        case("rule count 65 and no rules", vec![0, 65], &[2, 1]),
        case("rule count 65 and bad bit", one(&[bad(HEAD); 65]), &[2, 3]),
        case("bad bit and rule cut off", one(&[bad(HEAD)])[..19].to_vec(), &[1, 19]),
        case("bad bit in second rule and it cut off", one(&[rule(&[(HEAD, 1)]), bad(K)])[..35].to_vec(), &[1, 35]),
        case("bad bit and next rule missing", one(&[bad(NOT_NOT), NOTHING])[..20].to_vec(), &[5, 10]),
        case("bad bits in two masks", one(&[rule(&[(NOT, 32_768), (M, 2)])]), &[5, 8]),
        case("bad bits in two rules", one(&[bad(NOT_M), bad(HEAD)]), &[5, 18]),
        case("bad bit and bytes after", add(&one(&[bad(NOT_M)]), &[0]), &[5, 18]),
        case("bad bit and 13 negations", lettered(13, &[rule(&[(K, 8191), (NOT_M, 8192)])]), &[5, 42]),
        case("12 negations, K, M and not M", lettered(7, &[twelve]), &[0, 7, 1, 12]),
        case("13 negations, K, M and not M", lettered(7, &[twelve, rule(&[(NOT_K, 64)])]), &[7, 0]),
        case("the same and a byte", add(&lettered(7, &[twelve, rule(&[(NOT_K, 64)])]), &[0]), &[6, 49]),
        case("13 negations and bytes after", add(&lettered(13, &[thirteen]), &[0]), &[6, 45]),
        case("13 negations and next rule missing", lettered(13, &[thirteen, NOTHING])[..44].to_vec(), &[1, 44]),
    ]
}
