//! The records of a zone sheet, for the plain programs.

/// A refusal of document 01: the code, and the number returned with it.
pub type Refusal = (u32, u64);

const MOST_RECORDS: usize = 256;

#[derive(Clone, Copy)]
pub enum Record {
    Constant(i64),
    X,
    Y,
    Z,
    Sum(u8, u8),
    Difference(u8, u8),
    Product(u8, u8),
    Square(u8),
    /// The operand, and what it is less than: 0 in version 2, and 1 in version 1, where a whole number is at most 0 if it is less than 1. So
    /// both versions are one comparison, the faster of the two forms that were tried.
    Face(u8, u8),
    Both(u8, u8),
    Either(u8, u8),
    Complement(u8),
}

impl Record {
    fn is_logical(self) -> bool {
        use Record::*;
        matches!(self, Face(..) | Both(..) | Either(..) | Complement(_))
    }

    /// The record at the start of some bytes, and the number of bytes it takes, in a sheet whose faces are below this number.
    fn read(bytes: &[u8], below: u8) -> Option<(Record, usize)> {
        use Record::*;
        let count = *bytes.first()? as usize;
        let record = match *bytes.get(1..1 + count)? {
            [1, a, b, c, d] => Constant(i32::from_be_bytes([a, b, c, d]).into()),
            [2] => X,
            [3] => Y,
            [4] => Z,
            [5, a, b] => Sum(a, b),
            [6, a, b] => Difference(a, b),
            [7, a, b] => Product(a, b),
            [8, a] => Square(a),
            [16, a] => Face(a, below),
            [17, p, q] => Both(p, q),
            [18, p, q] => Either(p, q),
            [19, p] => Complement(p),
            _ => return None,
        };
        Some((record, 1 + count))
    }

    /// Whether the operands are earlier records of the right sort.
    fn is_sound(self, earlier: &[Record]) -> bool {
        use Record::*;
        let logical = |p: u8| earlier.get(p as usize).is_some_and(|r| r.is_logical());
        let arithmetic = |a: u8| earlier.get(a as usize).is_some_and(|r| !r.is_logical());
        match self {
            Constant(_) | X | Y | Z => true,
            Sum(a, b) | Difference(a, b) | Product(a, b) => arithmetic(a) && arithmetic(b),
            Square(a) | Face(a, _) => arithmetic(a),
            Both(p, q) | Either(p, q) => logical(p) && logical(q),
            Complement(p) => logical(p),
        }
    }
}

/// The records of a sheet, by replies 1 to 5.
pub fn parse(sheet: &[u8]) -> Result<Vec<Record>, Refusal> {
    if sheet.len() < 3 || u16::from_be_bytes([sheet[0], sheet[1]]) as usize != sheet.len() - 2 {
        return Err((1, 0));
    }
    let below = match sheet[2] {
        1 => 1,
        2 => 0,
        _ => return Err((2, 0)),
    };
    let mut records = Vec::new();
    let mut at = 3;
    while at < sheet.len() {
        match Record::read(&sheet[at..], below) {
            Some((record, taken)) if records.len() < MOST_RECORDS => {
                records.push(record);
                at += taken;
            }
            _ => return Err((3, at as u64)),
        }
    }
    let unsound = (0..records.len()).find(|&i| !records[i].is_sound(&records[..i]));
    if let Some(i) = unsound {
        return Err((4, i as u64));
    }
    match records.last() {
        Some(last) if last.is_logical() => Ok(records),
        _ => Err((5, records.len() as u64)),
    }
}
