//! What the program `views` prints for a sheet.

use super::calls::{open, Opened};
use super::refusal::Refusal;
use super::{members, Set};

/// All lines for the bytes that come in: "the program reads up to 1,237 bytes".
pub fn lines(input: &[u8]) -> Vec<u8> {
    let sheet = &input[..input.len().min(1_237)];
    match open(sheet) {
        Ok(opened) => accepted(&opened),
        Err(Refusal { number, place }) => format!("refused {number} {place}\n").into_bytes(),
    }
}

fn accepted(opened: &Opened) -> Vec<u8> {
    let mut text = Vec::new();
    line(&mut text, "sheet", &opened.check().map(|n| n as u32), &[]);
    for view in &opened.listing().views {
        let numbers = [view.guess.into(), view.sets.into()];
        line(&mut text, "view", &numbers, &named(opened, view.known));
        for set in opened.sets_of(view.guess) {
            line(&mut text, "set", &[], &named(opened, set));
        }
    }
    line(&mut text, "tally", &opened.listing().counts.map(u32::from), &[]);
    text
}

fn named(opened: &Opened, set: Set) -> Vec<&[u8]> {
    members(set).map(|atom| opened.names[atom].as_slice()).collect()
}

/// One line: a word, numbers and names, parted by one space.
fn line(text: &mut Vec<u8>, word: &str, numbers: &[u32], names: &[&[u8]]) {
    text.extend(word.as_bytes());
    for number in numbers {
        text.extend(format!(" {number}").as_bytes());
    }
    for name in names {
        text.push(b' ');
        text.extend(*name);
    }
    text.push(b'\n');
}
