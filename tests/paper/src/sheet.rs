//! "The zone sheet", and replies 1 to 5.

use crate::{reply, Refusal, Reply};

/// A record; an operand is the number of an earlier one.
#[derive(Clone, Debug, PartialEq, Eq)]
pub enum Record {
    Constant(i32),
    X,
    Y,
    Z,
    Sum(usize, usize),
    Difference(usize, usize),
    Product(usize, usize),
    Square(usize),
    Face(usize),
    Both(usize, usize),
    Either(usize, usize),
    Complement(usize),
}

use Record::*;

/// Kinds 1 to 8 are arithmetic; 16 to 19 are logical.
#[derive(Clone, Copy, Debug, PartialEq, Eq)]
pub enum Sort {
    Arithmetic,
    Logical,
}

/// Byte 2 of a sheet. It decides what kind 16 means (request 2026-07), and nothing else.
#[derive(Clone, Copy, Debug, PartialEq, Eq)]
pub enum Version {
    One = 1,
    Two = 2,
}

pub const VERSIONS: [Version; 2] = [Version::One, Version::Two];

/// The version and the records of a sheet that no reply refuses. The last record is the solid.
#[derive(Clone, Debug, PartialEq, Eq)]
pub struct Sheet {
    pub version: Version,
    pub records: Vec<Record>,
}

pub const MOST_RECORDS: usize = 256;
const FIRST_RECORD: usize = 3;

impl Version {
    /// The version of a byte, if it is 1 or 2.
    fn read(byte: u8) -> Option<Version> {
        VERSIONS.into_iter().find(|&version| version as u8 == byte)
    }
}

impl Record {
    /// The table of kinds, by the bytes after a record's count byte. None for an unknown kind or a wrong count.
    fn read(counted: &[u8]) -> Option<Record> {
        let number = |operand: u8| operand as usize;
        Some(match *counted {
            [1, a, b, c, d] => Constant(i32::from_be_bytes([a, b, c, d])),
            [2] => X,
            [3] => Y,
            [4] => Z,
            [5, a, b] => Sum(number(a), number(b)),
            [6, a, b] => Difference(number(a), number(b)),
            [7, a, b] => Product(number(a), number(b)),
            [8, a] => Square(number(a)),
            [16, a] => Face(number(a)),
            [17, p, q] => Both(number(p), number(q)),
            [18, p, q] => Either(number(p), number(q)),
            [19, p] => Complement(number(p)),
            _ => return None,
        })
    }

    /// The same table the other way round.
    fn write(&self) -> Vec<u8> {
        match *self {
            Constant(c) => [&[1], c.to_be_bytes().as_slice()].concat(),
            X => vec![2],
            Y => vec![3],
            Z => vec![4],
            Sum(a, b) => vec![5, a as u8, b as u8],
            Difference(a, b) => vec![6, a as u8, b as u8],
            Product(a, b) => vec![7, a as u8, b as u8],
            Square(a) => vec![8, a as u8],
            Face(a) => vec![16, a as u8],
            Both(p, q) => vec![17, p as u8, q as u8],
            Either(p, q) => vec![18, p as u8, q as u8],
            Complement(p) => vec![19, p as u8],
        }
    }

    pub fn sort(&self) -> Sort {
        match self {
            Constant(_) | X | Y | Z | Sum(..) | Difference(..) | Product(..) | Square(_) => {
                Sort::Arithmetic
            }
            Face(_) | Both(..) | Either(..) | Complement(_) => Sort::Logical,
        }
    }

    /// Its operands.
    pub fn operands(&self) -> Vec<usize> {
        match *self {
            Constant(_) | X | Y | Z => vec![],
            Square(a) | Face(a) | Complement(a) => vec![a],
            Sum(a, b) | Difference(a, b) | Product(a, b) | Both(a, b) | Either(a, b) => vec![a, b],
        }
    }

    /// Operands of kinds 5 to 8 and 16 are arithmetic; of 17 to 19, logical.
    pub fn operand_sort(&self) -> Sort {
        match self {
            Both(..) | Either(..) | Complement(_) => Sort::Logical,
            _ => Sort::Arithmetic,
        }
    }
}

impl Sheet {
    pub fn is_face(&self, number: usize) -> bool {
        matches!(self.records.get(number), Some(Face(_)))
    }
}

/// Tests a sheet, and returns the number of its records if it is good.
pub fn check(bytes: &[u8]) -> Reply {
    match read(bytes) {
        Ok(sheet) => reply(0, sheet.records.len()),
        Err(refusal) => refusal,
    }
}

/// Reads a sheet, or refuses it by the first of replies 1 to 5 that applies.
pub fn read(bytes: &[u8]) -> Result<Sheet, Refusal> {
    if bytes.len() < 3 || usize::from(u16::from_be_bytes([bytes[0], bytes[1]])) != bytes.len() - 2 {
        return Err(reply(1, 0));
    }
    let version = Version::read(bytes[2]).ok_or(reply(2, 0))?;
    let records = framed(bytes)?;
    if let Some(bad) = (0..records.len()).find(|&number| !operands_are_good(&records, number)) {
        return Err(reply(4, bad));
    }
    match records.last() {
        Some(solid) if solid.sort() == Sort::Logical => Ok(Sheet { version, records }),
        _ => Err(reply(5, records.len())),
    }
}

/// All records, whatever their operands are, or reply 3 at the first that is not a record.
pub fn framed(bytes: &[u8]) -> Result<Vec<Record>, Refusal> {
    let mut records = Vec::new();
    let mut offset = FIRST_RECORD;
    while offset < bytes.len() {
        let end = offset + 1 + usize::from(bytes[offset]);
        let record = bytes.get(offset + 1..end).and_then(Record::read);
        match record {
            Some(record) if records.len() < MOST_RECORDS => records.push(record),
            _ => return Err(reply(3, offset)),
        }
        offset = end;
    }
    Ok(records)
}

/// Each operand is an earlier record and of the right sort.
fn operands_are_good(records: &[Record], number: usize) -> bool {
    let record = &records[number];
    let is_good = |&a: &usize| a < number && records[a].sort() == record.operand_sort();
    record.operands().iter().all(is_good)
}

/// The bytes of a sheet with these records, good or not.
pub fn write(version: Version, records: &[Record]) -> Vec<u8> {
    let mut body = vec![version as u8];
    for record in records {
        let counted = record.write();
        body.push(counted.len() as u8);
        body.extend(counted);
    }
    [&(body.len() as u16).to_be_bytes(), body.as_slice()].concat()
}
