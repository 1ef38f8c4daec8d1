//! A sheet from text: the names of its atoms up to a colon, then its rules and pairs.
//!
//! `a b: a | b <- not K b; <- a, M b; a <> b` has two atoms, two rules and a pair: a and b are opposites. A rule or a
//! pair ends with `;` or with its line, and blank ones are skipped. `#` begins a comment, which ends with its line.

use crate::solver::sheet::{Pair, Rule};
use crate::write::{sheet_with as written, HEAD, K, M, NOT, NOT_K, NOT_M, NOT_NOT, PLAIN};
use std::fmt;

/// What is wrong with a text, and where: line and column count from 1.
#[derive(Clone, Debug, PartialEq, Eq)]
pub struct Wrong {
    pub line: usize,
    pub column: usize,
    pub message: String,
}

impl fmt::Display for Wrong {
    fn fmt(&self, f: &mut fmt::Formatter) -> fmt::Result {
        write!(f, "line {}, column {}: {}", self.line, self.column, self.message)
    }
}

/// What is no word; the last one ends a line.
const MARKS: [&str; 7] = ["<-", "<>", ":", ";", "|", ",", "\n"];

/// What stands before the atom of a literal, and the literal's mask.
const LITERALS: [(&str, usize); 7] =
    [("", PLAIN), ("not", NOT), ("not not", NOT_NOT), ("K", K), ("not K", NOT_K), ("M", M), ("not M", NOT_M)];

/// A mark or a word.
#[derive(Clone, Copy)]
struct Token<'a> {
    text: &'a str,
    line: usize,
    column: usize,
}

impl Token<'_> {
    fn wrong<T>(self, message: impl Into<String>) -> Result<T, Wrong> {
        Err(Wrong { line: self.line, column: self.column, message: message.into() })
    }

    fn ends_clause(&self) -> bool {
        matches!(self.text, ";" | "\n")
    }
}

/// How many bytes of a text are its first mark, space or word.
fn first(text: &str) -> usize {
    match text.find(|c: char| c.is_whitespace() || ":;|,<".contains(c)) {
        Some(0) if text.starts_with("<-") || text.starts_with("<>") => 2,
        Some(0) => text.chars().next().map_or(0, char::len_utf8),
        end => end.unwrap_or(text.len()),
    }
}

fn tokens(text: &str) -> Vec<Token<'_>> {
    let mut tokens = Vec::new();
    for (line, row) in (1..).zip(text.split('\n')) {
        let mut rest = row.split('#').next().unwrap_or_default();
        let mut column = 1;
        while !rest.is_empty() {
            let (text, after) = rest.split_at(first(rest));
            if !text.trim().is_empty() {
                tokens.push(Token { text, line, column });
            }
            column += text.chars().count();
            rest = after;
        }
        tokens.push(Token { text: "\n", line, column });
    }
    tokens
}

fn is_name(text: &str) -> bool {
    let may_stand = |c: char| c.is_ascii_lowercase() || c.is_ascii_digit() || c == '_';
    text.len() <= 12 && text.starts_with(|c: char| c.is_ascii_lowercase()) && text.chars().all(may_stand)
}

/// What has been read of a sheet; `asked` are the atoms under K and those under M.
#[derive(Default)]
struct Reader<'a> {
    names: Vec<&'a str>,
    rules: Vec<Rule>,
    pairs: Vec<Pair>,
    asked: [u16; 2],
}

impl<'a> Reader<'a> {
    fn name(&mut self, token: Token<'a>) -> Result<(), Wrong> {
        match token.text {
            "\n" => Ok(()),
            mark if MARKS.contains(&mark) => token.wrong(format!("a colon is missing before {mark}")),
            "not" => token.wrong("no atom can be named not: it is read as the negation"),
            name if !is_name(name) => token.wrong("a name has 1 to 12 bytes from a-z, 0-9 and _, the first from a-z"),
            name if self.names.contains(&name) => token.wrong(format!("a second atom is named {name}")),
            _ if self.names.len() == 15 => token.wrong("there are over 15 atoms"),
            name => {
                self.names.push(name);
                Ok(())
            }
        }
    }

    /// A rule or a pair, and the token that ends it.
    fn clause(&mut self, tokens: &[Token]) -> Result<(), Wrong> {
        match tokens.iter().find(|token| ["<-", "<>"].contains(&token.text)) {
            Some(mark) if mark.text == "<>" => self.pair(tokens),
            _ => self.rule(tokens),
        }
    }

    /// A pair and the token that ends it.
    fn pair(&mut self, tokens: &[Token]) -> Result<(), Wrong> {
        if self.pairs.len() == 7 {
            return tokens[0].wrong("there are over 7 pairs");
        }
        let end = tokens.len() - 1;
        let at = |place: usize| tokens[place.min(end)];
        let one = self.opposite(at(0))?;
        if at(1).text != "<>" {
            return at(1).wrong(format!("<> is missing before {}", at(1).text));
        }
        let other = self.opposite(at(2))?;
        if one == other {
            return at(2).wrong(format!("{} is twice in the pair", at(2).text));
        }
        if end > 3 {
            return at(3).wrong(format!("a pair has two atoms, and {} follows", at(3).text));
        }
        self.pairs.push([one, other]);
        Ok(())
    }

    /// The number of an atom that is in no earlier pair.
    fn opposite(&self, token: Token) -> Result<u8, Wrong> {
        let atom = self.number(token)?;
        if self.pairs.as_flattened().contains(&atom) {
            return token.wrong(format!("{} is in an earlier pair", token.text));
        }
        Ok(atom)
    }

    /// A rule and the token that ends it.
    fn rule(&mut self, tokens: &[Token]) -> Result<(), Wrong> {
        if self.rules.len() == 64 {
            return tokens[0].wrong("there are over 64 rules");
        }
        let mut rule = [0; 8];
        let arrow = tokens.iter().position(|token| token.text == "<-");
        let (head, body) = tokens.split_at(arrow.map_or(tokens.len(), |arrow| arrow + 1));
        if head.len() > 1 {
            for (part, end) in parts(head, "|") {
                rule[HEAD] |= self.atom(*part.first().unwrap_or(&end))?;
                if let Some(extra) = part.get(1) {
                    return extra.wrong(format!("| or <- is missing before {}", extra.text));
                }
            }
        }
        if head.len() > 1 || body.len() > 1 {
            for (part, end) in parts(body, ",") {
                let (mask, atom) = self.literal(part, end)?;
                rule[mask] |= atom;
            }
        }
        self.rules.push(rule);
        Ok(())
    }

    /// The mask of a literal and its atom's bit; `end` follows the literal.
    fn literal(&mut self, tokens: &[Token], end: Token) -> Result<(usize, u16), Wrong> {
        let is_before = |text: &&str| ["not", "K", "M"].contains(text);
        let before: Vec<&str> = tokens.iter().map(|token| token.text).take_while(is_before).collect();
        let start = *tokens.first().unwrap_or(&end);
        let Some(&(_, mask)) = LITERALS.iter().find(|(words, _)| *words == before.join(" ")) else {
            return start.wrong(format!("no literal begins with {}", before.join(" ")));
        };
        let atom = self.atom(*tokens.get(before.len()).unwrap_or(&end))?;
        if let Some(extra) = tokens.get(before.len() + 1) {
            return extra.wrong(format!("a comma is missing before {}", extra.text));
        }
        if mask >= K {
            self.asked[usize::from(mask >= M)] |= atom;
        }
        if self.asked[0].count_ones() + self.asked[1].count_ones() > 12 {
            return start.wrong("there are over 12 epistemic negations");
        }
        Ok((mask, atom))
    }

    /// An atom's bit.
    fn atom(&self, token: Token) -> Result<u16, Wrong> {
        Ok(1 << self.number(token)?)
    }

    fn number(&self, token: Token) -> Result<u8, Wrong> {
        match self.names.iter().position(|&name| name == token.text) {
            Some(atom) => Ok(atom as u8),
            None if MARKS.contains(&token.text) => token.wrong("an atom is missing"),
            None => token.wrong(format!("no atom is named {}", token.text)),
        }
    }
}

/// What stands between marks of one kind, each with the token after it.
fn parts<'b, 'a>(tokens: &'b [Token<'a>], mark: &'b str) -> impl Iterator<Item = (&'b [Token<'a>], Token<'a>)> + 'b {
    tokens.split_inclusive(move |token| token.text == mark).map(|part| (&part[..part.len() - 1], part[part.len() - 1]))
}

/// The sheet's bytes.
pub fn sheet(text: &str) -> Result<Vec<u8>, Wrong> {
    let tokens = tokens(text);
    let colon = tokens.iter().position(|token| token.text == ":");
    let mut reader = Reader::default();
    for token in &tokens[..colon.unwrap_or(tokens.len())] {
        reader.name(*token)?;
    }
    let Some(colon) = colon else {
        return tokens[tokens.len() - 1].wrong("a colon is missing after the names");
    };
    for clause in tokens[colon + 1..].split_inclusive(Token::ends_clause).filter(|clause| clause.len() > 1) {
        reader.clause(clause)?;
    }
    Ok(written(&reader.names, &reader.rules, &reader.pairs))
}

/// The sheet's bytes; panics where the text is wrong.
pub fn good(text: &str) -> Vec<u8> {
    sheet(text).unwrap_or_else(|wrong| panic!("{wrong}: {text}"))
}
