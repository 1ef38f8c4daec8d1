//! Opening hours: the calendar beside a sheet, the rules in force at a minute, and the minutes where these change.

use super::reader::Reader;
use super::refusal::Refusal;
use super::sheet::Rule;

/// How many minutes a week has; they count "from Monday 0:00".
pub const WEEK: usize = 10_080;

/// What an accepted calendar says: for each rule of the sheet, whether it is in force at each minute of the week.
pub struct Calendar {
    hours: Vec<Vec<bool>>,
}

/// An entry: the rule's number, the first minute and the end.
type Entry = [usize; 3];

/// Reads a whole calendar, beside a sheet of so many rules.
pub fn read(bytes: &[u8], rules: usize) -> Result<Calendar, Refusal> {
    let mut reader = Reader::new(bytes);
    let count = reader.count(64)?;
    let entries = (0..count).map(|_| entry(&mut reader, rules)).collect::<Result<Vec<_>, _>>()?;
    reader.end()?;
    Ok(Calendar { hours: (0..rules).map(|rule| hours(rule, &entries)).collect() })
}

/// "11 with the entry's place, for a rule number not in the sheet, a minute over 10079 or equal ends".
fn entry(reader: &mut Reader, rules: usize) -> Result<Entry, Refusal> {
    let place = reader.at;
    let bytes = reader.field(5)?;
    let minute = |i| usize::from(u16::from_le_bytes([bytes[i], bytes[i + 1]]));
    let (rule, first, end) = (usize::from(bytes[0]), minute(1), minute(3));
    if rule >= rules || first >= WEEK || end >= WEEK || first == end {
        return Err(Refusal::new(11, place));
    }
    Ok([rule, first, end])
}

/// The hours of a rule. "A rule with no entry is always in force, with several whenever one holds": each is walked
/// minute by minute from its first to its end, over the week's close where that comes between.
fn hours(rule: usize, entries: &[Entry]) -> Vec<bool> {
    let own: Vec<&Entry> = entries.iter().filter(|entry| entry[0] == rule).collect();
    let mut hours = vec![own.is_empty(); WEEK];
    for &&[_, first, end] in &own {
        let mut minute = first;
        while minute != end {
            hours[minute] = true;
            minute = (minute + 1) % WEEK;
        }
    }
    hours
}

impl Calendar {
    /// "Only the rules in force" at a minute of the week.
    pub fn in_force(&self, rules: &[Rule], minute: usize) -> Vec<Rule> {
        rules.iter().zip(&self.hours).filter(|(_, hours)| hours[minute]).map(|(&rule, _)| rule).collect()
    }

    /// "The minutes where the rules in force, told apart by number, differ from those a minute earlier, minute 0 being
    /// compared with 10079", rising.
    pub fn changes(&self) -> Vec<u16> {
        let changes =
            |&minute: &usize| self.hours.iter().any(|hours| hours[minute] != hours[(minute + WEEK - 1) % WEEK]);
        (0..WEEK).filter(changes).map(|minute| minute as u16).collect()
    }
}
