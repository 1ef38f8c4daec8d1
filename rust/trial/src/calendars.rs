//! Random calendars, all of them accepted, and the minutes that tell them apart.

use crate::random::Random;
use crate::solver::calendar::WEEK;
use crate::write::Entry;

/// At these a minute more or less leaves the week, a byte, or a byte with a sign.
const LIMITS: [u16; 8] = [0, 1, 127, 128, 255, 256, 10_078, 10_079];

/// So many entries for a sheet of so many rules; none for no rules. Few minutes and few rules occur in them, so that
/// many touch, overlap or run over the week's close.
pub fn random_entries(random: &mut Random, rules: usize, count: usize) -> Vec<Entry> {
    if rules == 0 {
        return vec![];
    }
    let minutes = random_minutes(random);
    let numbers: Vec<u8> = (0..random.between(1, 4)).map(|_| random.below(rules) as u8).collect();
    let entry = |_| {
        let first = random.below(minutes.len());
        let end = (first + random.between(1, minutes.len() - 1)) % minutes.len();
        let rule = if random.chance(80) { random.pick(&numbers) } else { random.below(rules) as u8 };
        (rule, minutes[first], minutes[end])
    };
    (0..count).map(entry).collect()
}

/// Two to eight different minutes; some follow each other.
fn random_minutes(random: &mut Random) -> Vec<u16> {
    let mut minutes: Vec<u16> = Vec::new();
    let count = random.between(2, 8);
    while minutes.len() < count {
        let minute = match minutes.last() {
            Some(last) if random.chance(20) => (last + 1) % WEEK as u16,
            _ if random.chance(40) => random.pick(&LIMITS),
            _ => random.below(WEEK) as u16,
        };
        if !minutes.contains(&minute) {
            minutes.push(minute);
        }
    }
    minutes
}

/// The minutes on both sides of each first and each end, and the first and the last of the week; rising.
pub fn edges(entries: &[Entry]) -> Vec<u16> {
    let before = |minute: u16| if minute == 0 { WEEK as u16 - 1 } else { minute - 1 };
    let around = entries.iter().flat_map(|&(_, first, end)| [before(first), first, before(end), end]);
    let mut minutes: Vec<u16> = around.chain([0, WEEK as u16 - 1]).collect();
    minutes.sort_unstable();
    minutes.dedup();
    minutes
}
