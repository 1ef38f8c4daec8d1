//! Damaged sheets: bytes changed, cut off or added, counts, masks and atom numbers too large, names and atoms of pairs
//! made equal. Damaged calendars.

use crate::pairs::random_pairs;
use crate::random::Random;
use crate::sheets::random_names;
use crate::write::{calendar, sheet_with, Entry, K, M};

/// A sheet with one kind of damage; some of them are still accepted.
pub fn damaged(random: &mut Random, sheet: &[u8]) -> Vec<u8> {
    let mut bytes = sheet.to_vec();
    match random.below(8) {
        0 => bytes.truncate(random.below(bytes.len() + 1)),
        1 => extend(random, &mut bytes),
        2 => change(random, &mut bytes),
        3 => bytes[0] = random.pick(&[bytes[0] + 1, bytes[0].wrapping_sub(1), 15, 16, 255]),
        4 => rule_byte(random, &mut bytes),
        5 => names(random, &mut bytes),
        6 => pair_byte(random, &mut bytes),
        _ => (0..random.between(2, 5)).for_each(|_| change(random, &mut bytes)),
    }
    bytes
}

fn extend(random: &mut Random, bytes: &mut Vec<u8>) {
    for _ in 0..random.pick(&[1, 1, 2, 15, 16, 17, 40]) {
        bytes.push(random.word() as u8);
    }
}

fn change(random: &mut Random, bytes: &mut [u8]) {
    let place = random.below(bytes.len());
    let old = bytes[place];
    bytes[place] = match random.below(3) {
        0 => random.word() as u8,
        1 => random.pick(&[old.wrapping_add(1), old.wrapping_sub(1)]),
        _ => old ^ 1 << random.below(8),
    };
}

/// Where so many names end in a sheet that begins with whole names.
fn after_names(bytes: &[u8], count: u8) -> usize {
    (0..count).fold(1, |at, _| at + 1 + usize::from(bytes[at]))
}

/// Where the rule count stands in such a sheet.
fn rule_count_at(bytes: &[u8]) -> usize {
    after_names(bytes, bytes[0])
}

/// Where the pair count stands in a sheet that begins with whole names and rules.
fn pair_count_at(bytes: &[u8]) -> usize {
    let rules = rule_count_at(bytes);
    rules + 1 + 16 * usize::from(bytes[rules])
}

/// A change of the rule count or of a byte of a mask.
fn rule_byte(random: &mut Random, bytes: &mut [u8]) {
    let (count, end) = (rule_count_at(bytes), pair_count_at(bytes));
    let old = bytes[count];
    if random.chance(30) || end == count + 1 {
        bytes[count] = random.pick(&[old + 1, old.wrapping_sub(1), 64, 65, 255]);
    } else {
        let place = random.between(count + 1, end - 1);
        bytes[place] |= 1 << random.below(8);
    }
}

/// A cut in the pairs, another pair count, a pair more, or another atom in a pair.
fn pair_byte(random: &mut Random, bytes: &mut Vec<u8>) {
    let (atoms, count) = (bytes[0], pair_count_at(bytes));
    let old = bytes[count];
    let atom = |random: &mut Random| random.pick(&[0, atoms / 2, atoms.wrapping_sub(1), atoms, atoms + 1, 255]);
    match random.below(4) {
        0 => bytes.truncate(random.between(count, bytes.len() - 1)),
        1 => bytes[count] = random.pick(&[old + 1, old.wrapping_sub(1), 7, 8, 255]),
        2 if old > 0 => {
            let place = random.between(count + 1, bytes.len() - 1);
            bytes[place] = atom(random);
        }
        _ => {
            bytes[count] += 1;
            bytes.extend([atom(random), atom(random)]);
        }
    }
}

/// A name repeated, a bad length or a bad byte.
fn names(random: &mut Random, bytes: &mut Vec<u8>) {
    if bytes[0] == 0 {
        return extend(random, bytes);
    }
    let chosen = random.below(bytes[0].into()) as u8;
    let at = after_names(bytes, chosen);
    let end = after_names(bytes, chosen + 1);
    match random.below(3) {
        0 => bytes[at] = random.pick(&[0, 13, 255]),
        1 => bytes[random.between(at + 1, end - 1)] = random.pick(b"`{/:A_0\x5e\x60\x00\xff"),
        _ => {
            let name = bytes[at..end].to_vec();
            let later = random.pick(&[end, rule_count_at(bytes)]);
            bytes.splice(later..later, name);
            bytes[0] += 1;
        }
    }
}

/// A sheet of more than twelve negations: refusal 7 (and no other).
pub fn too_many_negations(random: &mut Random) -> Vec<u8> {
    let atoms = random.between(7, 15);
    let mut rules = vec![[0; 8]; random.between(1, 6)];
    let mut left = random.between(13, 2 * atoms);
    for atom in 0..atoms {
        for mask in [K, M] {
            if left > 0 {
                let rule = random.below(rules.len());
                rules[rule][mask + random.below(2)] |= 1 << atom;
                left -= 1;
            }
        }
    }
    let pairs = random_pairs(random, atoms);
    sheet_with(&random_names(random, atoms, 12), &rules, &pairs)
}

/// A calendar of these entries with one kind of damage, beside a sheet of so many rules; some are still accepted.
pub fn damaged_calendar(random: &mut Random, entries: &[Entry], rules: usize) -> Vec<u8> {
    let mut bytes = calendar(&entry_damaged(random, entries, rules));
    match random.below(8) {
        0 => bytes.truncate(random.below(bytes.len())),
        1 => extend(random, &mut bytes),
        2 => change(random, &mut bytes),
        3 => bytes[0] = random.pick(&[bytes[0] + 1, bytes[0].wrapping_sub(1), 64, 65, 255]),
        _ => (),
    }
    bytes
}

/// The entries, mostly one of them with a field at or beyond its limit.
fn entry_damaged(random: &mut Random, entries: &[Entry], rules: usize) -> Vec<Entry> {
    let mut entries = entries.to_vec();
    if entries.is_empty() {
        entries.push((0, 100, 200));
    }
    let at = random.below(entries.len());
    let (rule, first, end) = &mut entries[at];
    match random.below(8) {
        0 => *rule = random.pick(&[rules as u8, rules.saturating_sub(1) as u8, 255]),
        1 => *first = random.pick(&[10_079, 10_080, 65_535]),
        2 => *end = random.pick(&[10_079, 10_080, 65_535]),
        3 => *end = *first,
        4 => *end = *first + 1,
        _ => (),
    }
    entries
}
