//! The reader of sheets: what a sheet says, or the first refusal of 1 to 6 and 15 in reading order.

use super::reader::Reader;
use super::refusal::Refusal;
use super::Set;

/// The masks of a rule: head, plain, not, not not, K, not K, M, not M.
pub type Rule = [Set; 8];

/// Opposites: the numbers of two atoms.
pub type Pair = [u8; 2];

/// What an accepted sheet says.
#[derive(Clone, Debug)]
pub struct Sheet {
    pub names: Vec<Vec<u8>>,
    pub rules: Vec<Rule>,
    pub pairs: Vec<Pair>,
}

/// Reads a whole sheet.
pub fn read(bytes: &[u8]) -> Result<Sheet, Refusal> {
    let mut reader = Reader::new(bytes);
    let mut names = Vec::new();
    for _ in 0..reader.count(15)? {
        let name = name(&mut reader, &names)?;
        names.push(name);
    }
    let count = reader.count(64)?;
    let rules = (0..count).map(|_| rule(&mut reader, names.len())).collect::<Result<_, _>>()?;
    let mut pairs = Vec::new();
    for _ in 0..reader.count(7)? {
        let pair = pair(&mut reader, names.len(), &pairs)?;
        pairs.push(pair);
    }
    reader.end()?;
    Ok(Sheet { names, rules, pairs })
}

fn name(reader: &mut Reader, earlier: &[Vec<u8>]) -> Result<Vec<u8>, Refusal> {
    let place = reader.at;
    let length = reader.field(1)?[0];
    if !(1..=12).contains(&length) {
        return Err(Refusal::new(3, place));
    }
    let name = reader.field(length.into())?;
    let bad = name.iter().enumerate().position(|(i, &byte)| !may_stand(byte, i));
    if let Some(i) = bad {
        return Err(Refusal::new(3, place + 1 + i));
    }
    if earlier.iter().any(|other| other == name) {
        return Err(Refusal::new(4, place));
    }
    Ok(name.to_vec())
}

fn rule(reader: &mut Reader, atoms: usize) -> Result<Rule, Refusal> {
    let place = reader.at;
    let bytes = reader.field(16)?;
    let mut rule = [0; 8];
    for (i, mask) in rule.iter_mut().enumerate() {
        *mask = u16::from_le_bytes([bytes[2 * i], bytes[2 * i + 1]]);
        if *mask >> atoms != 0 {
            return Err(Refusal::new(5, place + 2 * i));
        }
    }
    Ok(rule)
}

/// "15 with the pair's place, for an atom number not below the atom count, one atom twice in a pair or an atom of an
/// earlier pair".
fn pair(reader: &mut Reader, atoms: usize, earlier: &[Pair]) -> Result<Pair, Refusal> {
    let place = reader.at;
    let bytes = reader.field(2)?;
    let pair = [bytes[0], bytes[1]];
    let is_bad = |atom: &u8| usize::from(*atom) >= atoms || earlier.as_flattened().contains(atom);
    if pair[0] == pair[1] || pair.iter().any(is_bad) {
        return Err(Refusal::new(15, place));
    }
    Ok(pair)
}

/// "Bytes from a-z, 0-9 and `_`, the first from a-z."
fn may_stand(byte: u8, position: usize) -> bool {
    byte.is_ascii_lowercase() || position > 0 && (byte.is_ascii_digit() || byte == b'_')
}
