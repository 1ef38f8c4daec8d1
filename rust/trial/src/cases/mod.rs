//! The cases that `crates/calls` stores: requests, each with the line that is owed for it. Many answers are written by
//! hand from documents 01 and 02; the second solver must agree with them, and gives the lines.

mod allowances;
mod calendar;
mod check;
mod days;
pub mod guesses;
mod hand;
mod hours;
mod listed;
mod lists;
mod masks;
mod opposites;
mod pairs;
mod queries;
mod rows;
pub mod sharing;
pub mod sheets;
pub mod small;
pub mod twelve;

use crate::known::kiln;
use crate::request::{Request, CHECK, SHARE};
use crate::solver::calls::{open, Opened};
use crate::solver::refusal::Refusal;
use std::collections::HashSet;
use std::fmt::Display;

/// A request, and the line that is owed for it as far as it was found by hand. In it `?` stands for any number; at its
/// end ` ..` stands for the other cells as they were lent, ` ??` for any cells.
#[derive(Clone)]
pub struct Case {
    pub title: String,
    pub request: Request,
    pub by_hand: Option<String>,
}

/// The bytes of a request, and the line that is owed.
pub struct Owed {
    pub title: String,
    pub request: Vec<u8>,
    pub line: String,
}

/// What the cells of a request hold first where nothing asks for another number: one that is in no answer, or, since
/// long buffers make long lines, a small one.
fn first(cells: u16) -> u16 {
    if cells <= 100 {
        60_000
    } else {
        7
    }
}

/// Numbers, parted by spaces.
fn spaced<T: Display>(numbers: &[T]) -> String {
    numbers.iter().map(T::to_string).collect::<Vec<_>>().join(" ")
}

/// Whether a line is the one by hand.
fn agrees(by_hand: &str, request: &Request, line: &str) -> bool {
    let mut wanted: Vec<String> = by_hand.split(' ').map(str::to_string).collect();
    let mut fields: Vec<&str> = line.split(' ').collect();
    if by_hand.ends_with(" ..") {
        wanted.pop();
        let written = wanted.iter().rev().take_while(|field| *field != ":").count();
        wanted.extend(request.lent().iter().skip(written).map(u16::to_string));
    } else if by_hand.ends_with(" ??") {
        wanted.pop();
        fields.truncate(wanted.len());
    }
    wanted.len() == fields.len() && wanted.iter().zip(fields).all(|(wanted, field)| wanted == "?" || wanted == field)
}

impl Case {
    /// A case without an answer by hand.
    fn new(title: &str, call: u8, sheet: &[u8], argument: u32, cells: usize) -> Case {
        let (sheet, cells) = (sheet.to_vec(), cells as u16);
        let request = Request { call, sheet, argument, cells, first: first(cells), ..Request::default() };
        Case { title: title.to_string(), request, by_hand: None }
    }

    /// With a calendar beside the sheet.
    fn beside(mut self, calendar: &[u8]) -> Case {
        self.request.companion = calendar.to_vec();
        self
    }

    /// Under day masks, in and out.
    fn under(mut self, masks: [u16; 2]) -> Case {
        self.request.masks = masks;
        self
    }

    /// With what follows the call in its line by hand.
    fn owing(self, by_hand: &str) -> Case {
        Case { by_hand: Some(format!("{} {by_hand}", self.request.call)), ..self }
    }

    /// The line of the second solver, which opened the sheet; an error where the line by hand is another.
    fn owed(self, opened: &Result<Opened, Refusal>) -> Result<Owed, String> {
        let Case { title, request, by_hand } = self;
        let Request { call, argument, masks, cells, .. } = request;
        let title = format!("{title}: call {call}, argument {argument}, masks {masks:?}, {cells} cells");
        let line = request.line_on(opened).to_string();
        match by_hand {
            Some(by_hand) if !agrees(&by_hand, &request, &line) => {
                let start: String = line.chars().take(200).collect();
                Err(format!("{title}: by hand {by_hand}, by the second solver {start}"))
            }
            _ => Ok(Owed { title, request: request.bytes(), line: line + "\n" }),
        }
    }
}

/// Every case, some requests more than once.
fn all() -> impl Iterator<Item = Case> {
    let parts: [fn() -> Vec<Case>; 15] = [
        hand::cases,
        check::cases,
        pairs::cases,
        small::cases,
        queries::cases,
        guesses::cases,
        lists::cases,
        twelve::cases,
        calendar::cases,
        hours::cases,
        masks::cases,
        days::cases,
        opposites::cases,
        sharing::cases,
        allowances::cases,
    ];
    parts.into_iter().flat_map(|part| part())
}

/// An unknown call ends the program, though a request follows: nothing is printed. This comes last.
fn ending() -> Owed {
    let unknown = Request { call: SHARE + 1, sheet: kiln(), ..Request::default() };
    let known = Request { call: CHECK, ..unknown.clone() };
    let title = "an unknown call and another request".to_string();
    Owed { title, request: [unknown.bytes(), known.bytes()].concat(), line: String::new() }
}

/// Every request once with its line; an error where the second solver doesn't agree with an answer by hand.
pub fn owed() -> Result<Vec<Owed>, String> {
    let mut found: Vec<Owed> = Vec::new();
    let mut requests = HashSet::new();
    let mut last = ((vec![], None), open(&[]));
    for case in all() {
        let read = (case.request.sheet.clone(), case.request.day());
        if read != last.0 {
            last = (read, case.request.opened());
        }
        let owed = case.owed(&last.1)?;
        if requests.insert(owed.request.clone()) {
            found.push(owed);
        }
    }
    found.push(ending());
    Ok(found)
}
