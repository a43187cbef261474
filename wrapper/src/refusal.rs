//! Why a call refuses.
use std::fmt::{Display, Formatter, Result};

/// The end of a record's bounds that lies outside -2^60 to 2^60: the low end if it does, on either side, otherwise the high end. It tells
/// the author of a sheet what to change.
#[derive(Clone, Copy, PartialEq, Eq, Debug)]
pub enum End {
    /// The record runs too far below zero; or it is above 2^60 all over the root, and no root inside this one helps. Shrink the
    /// coefficients, or shift the whole room towards 0.
    Low = 0,
    /// The high end alone: the record grows too large towards the far side of the root. Take a smaller root, or shift it so that its far
    /// side is nearer to 0.
    High = 1,
}

/// Why a call refuses, with document 01's code and number. The variants stand in the order of test: a call returns the first that
/// applies. One call has another order: [`refine`](crate::refine) tests the map before the depth. Where several records or leaves are at
/// fault, the number is that of the first.
///
/// A later version may have more variants, so a `match` needs an arm for the rest: treat it as a refusal.
#[derive(Clone, Copy, PartialEq, Eq, Debug)]
#[non_exhaustive]
pub enum Refusal {
    /// 1, of [`check`](crate::check), [`build`](crate::build), [`refine`](crate::refine) and [`lookup`](crate::lookup): the sheet has fewer
    /// than 3 bytes, or its length is not the one that it says.
    SheetLength,
    /// 2, of the same calls: the sheet's version is neither 1 nor 2.
    SheetVersion,
    /// 3, of the same calls: a record runs over the end, has an unknown kind or a wrong count, or is the 257th. With its offset in the
    /// sheet.
    Record { offset: usize },
    /// 4, of the same calls: an operand is not an earlier record, or is of the wrong sort. With the record's number.
    Operand { record: usize },
    /// 5, of the same calls: there are no records, or the last is not logical. With the number of records.
    Solid { records: usize },
    /// 6, of [`build`](crate::build) and [`refine`](crate::refine): the root or the depth is out of limits or, from a refine, the depth is
    /// smaller than the map's.
    Limits,
    /// 9, of [`refine`](crate::refine), [`open`](crate::open) and [`lookup`](crate::lookup): the map does not open or, but not from `open`, a
    /// terminal leaf names a record that is not a face of the sheet. With the offset in the map, which is 0 for the length, 4 for the
    /// version, 5 for the root or the depth, the first byte of a bad leaf, or the map's length if the leaves stop short.
    Map { offset: usize },
    /// 7, of [`build`](crate::build), [`refine`](crate::refine) and [`lookup`](crate::lookup): a record's bounds over the root pass 2^60. With
    /// the record's number and the end that does.
    OverRoot { record: usize, end: End },
    /// 8, of [`build`](crate::build) and [`refine`](crate::refine): the buffer is shorter than the map. With the number of bytes needed.
    Short { needed: usize },
    /// 10, of [`lookup`](crate::lookup): the point is not in the map's root, the high planes left out.
    NotInRoot,
    /// A code that this crate does not know. The library that it was made for returns none.
    Unknown { code: u32, number: u64 },
}

impl End {
    /// Its name, and in short what to change.
    fn told(self) -> (&'static str, &'static str) {
        match self {
            End::Low => (
                "low",
                "shrink its coefficients, or shift the whole room towards 0",
            ),
            End::High => (
                "high",
                "take a smaller root, or one whose far side is nearer to 0",
            ),
        }
    }
}

impl Refusal {
    /// The refusal of a code other than 0. Numbers are lengths, offsets and counts; they fit a usize, since the library is for 64 bits.
    pub(crate) fn new(code: u32, number: u64) -> Refusal {
        use Refusal::*;
        let n = number as usize;
        match code {
            1 => SheetLength,
            2 => SheetVersion,
            3 => Record { offset: n },
            4 => Operand { record: n },
            5 => Solid { records: n },
            6 => Limits,
            9 => Map { offset: n },
            7 => OverRoot {
                record: n / 2,
                end: if n % 2 == 0 { End::Low } else { End::High },
            },
            8 => Short { needed: n },
            10 => NotInRoot,
            _ => Unknown { code, number },
        }
    }

    /// Document 01's code.
    pub fn code(self) -> u32 {
        use Refusal::*;
        match self {
            SheetLength => 1,
            SheetVersion => 2,
            Record { .. } => 3,
            Operand { .. } => 4,
            Solid { .. } => 5,
            Limits => 6,
            Map { .. } => 9,
            OverRoot { .. } => 7,
            Short { .. } => 8,
            NotInRoot => 10,
            Unknown { code, .. } => code,
        }
    }

    /// The number that document 01 returns with the code.
    pub fn number(self) -> u64 {
        use Refusal::*;
        match self {
            SheetLength | SheetVersion | Limits | NotInRoot => 0,
            Record { offset: n }
            | Operand { record: n }
            | Solid { records: n }
            | Map { offset: n }
            | Short { needed: n } => n as u64,
            OverRoot { record, end } => 2 * record as u64 + end as u64,
            Unknown { number, .. } => number,
        }
    }
}

impl Display for Refusal {
    fn fmt(&self, f: &mut Formatter) -> Result {
        use Refusal::*;
        match self {
            SheetLength => write!(f, "the sheet has fewer than 3 bytes, or its length is not the one that it says"),
            SheetVersion => write!(f, "the sheet's version is neither 1 nor 2"),
            Record { offset } => write!(
                f,
                "the record at byte {offset} of the sheet runs over the end, has an unknown kind or a wrong count, or is the 257th"
            ),
            Operand { record } => write!(
                f,
                "an operand of record {record} is not an earlier record, or is of the wrong sort"
            ),
            Solid { records: 0 } => write!(f, "the sheet has no records"),
            Solid { records } => write!(f, "the last of the sheet's {records} records is not logical"),
            Limits => write!(f, "the root or the depth is out of limits"),
            Map { offset: 0 } => write!(f, "the map's length is not the one that it says"),
            Map { offset: 4 } => write!(f, "the map's version is not 1"),
            Map { offset: 5 } => write!(f, "the map's root or depth is out of limits"),
            Map { offset } => write!(
                f,
                "the map's leaf at byte {offset} is bad, by itself or for the sheet of a lookup, or the leaves stop short there"
            ),
            OverRoot { record, end } => {
                let (name, advice) = end.told();
                write!(f, "the {name} end of record {record}'s bounds over the root is outside -2^60 to 2^60: {advice}")
            }
            Short { needed } => write!(f, "the map needs a buffer of {needed} bytes"),
            NotInRoot => write!(f, "the point is not in the map's root"),
            Unknown { code, number } => write!(f, "unknown code {code} with {number}"),
        }
    }
}

impl std::error::Error for Refusal {}

#[cfg(test)]
mod tests {
    use super::{End, Refusal};

    #[test]
    fn codes_over_10_are_unknown_and_none_is_lost() {
        for code in 1..=16 {
            let why = Refusal::new(code, 0);
            assert_eq!(why.code(), code);
            assert_eq!(matches!(why, Refusal::Unknown { .. }), code > 10);
        }
    }

    #[test]
    fn a_number_of_7_is_a_record_and_an_end() {
        for record in 0..256 {
            for (end, number) in [(End::Low, 2 * record), (End::High, 2 * record + 1)] {
                let why = Refusal::new(7, number as u64);
                assert_eq!(why, Refusal::OverRoot { record, end });
                assert_eq!(why.number(), number as u64);
            }
        }
    }
}
