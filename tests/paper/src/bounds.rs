//! "Bounds over a closed cube".

use crate::root::{Cube, Root};
use crate::sheet::{Record, Record::*, Sheet};
use crate::{reply, Refusal};

/// Bounds [low, high], exact whole numbers.
#[derive(Clone, Copy, Debug, PartialEq, Eq)]
pub struct Interval {
    pub low: i128,
    pub high: i128,
}

/// An end of an interval.
#[derive(Clone, Copy, Debug, PartialEq, Eq)]
pub enum End {
    Low,
    High,
}

/// A record whose bounds pass a limit, and the end that lies outside it.
#[derive(Clone, Copy, Debug, PartialEq, Eq)]
pub struct Past {
    pub record: usize,
    pub end: End,
}

/// Bounds lie in -2^60 to 2^60.
pub const FURTHEST: i128 = 1 << 60;

pub fn interval(low: impl Into<i128>, high: impl Into<i128>) -> Interval {
    Interval {
        low: low.into(),
        high: high.into(),
    }
}

impl Interval {
    pub fn sum(self, other: Interval) -> Interval {
        interval(self.low + other.low, self.high + other.high)
    }

    pub fn difference(self, other: Interval) -> Interval {
        interval(self.low - other.high, self.high - other.low)
    }

    /// Least and greatest of ac, ad, bc, bd.
    pub fn product(self, other: Interval) -> Interval {
        let ends = [
            self.low * other.low,
            self.low * other.high,
            self.high * other.low,
            self.high * other.high,
        ];
        let least = ends.into_iter().fold(ends[0], i128::min);
        let greatest = ends.into_iter().fold(ends[0], i128::max);
        interval(least, greatest)
    }

    pub fn square(self) -> Interval {
        let (a, b) = (self.low * self.low, self.high * self.high);
        if self.low >= 0 {
            interval(a, b)
        } else if self.high <= 0 {
            interval(b, a)
        } else {
            interval(0, a.max(b))
        }
    }

    /// Which end lies outside -furthest to furthest: the low end if it does, otherwise the high end (request 2026-04).
    pub fn end_outside(self, furthest: i128) -> Option<End> {
        let is_outside = |end: i128| end < -furthest || end > furthest;
        if is_outside(self.low) {
            Some(End::Low)
        } else if is_outside(self.high) {
            Some(End::High)
        } else {
            None
        }
    }

    /// Whether an end does.
    pub fn passes(self, furthest: i128) -> bool {
        self.end_outside(furthest).is_some()
    }
}

impl Past {
    /// In replies 7 and 11: twice the record number, plus 1 for the high end.
    pub fn number(self) -> usize {
        match self.end {
            End::Low => 2 * self.record,
            End::High => 2 * self.record + 1,
        }
    }
}

/// The rule of products. It is a parameter, so that a test can take a wrong one.
pub type Rule = fn(Interval, Interval) -> Interval;

/// The bounds of a record over a closed cube, from those of the records before it; None for a logical one.
pub fn of_record(
    record: &Record,
    earlier: &[Option<Interval>],
    cube: &Cube,
    product: Rule,
) -> Option<Interval> {
    let of = |a: usize| earlier[a].expect("an operand is arithmetic");
    let along = |axis: usize| interval(cube.low[axis], cube.high(axis));
    match *record {
        Constant(c) => Some(interval(c, c)),
        X => Some(along(0)),
        Y => Some(along(1)),
        Z => Some(along(2)),
        Sum(a, b) => Some(of(a).sum(of(b))),
        Difference(a, b) => Some(of(a).difference(of(b))),
        Product(a, b) => Some(product(of(a), of(b))),
        Square(a) => Some(of(a).square()),
        Face(_) | Both(..) | Either(..) | Complement(_) => None,
    }
}

/// The bounds of all records over a closed cube, None for a logical one. They are exact if the cube's root is
/// within the limit: over a smaller cube they lie inside those over the root.
pub fn over(sheet: &Sheet, cube: &Cube) -> Vec<Option<Interval>> {
    over_by(Interval::product, sheet, cube)
}

pub fn over_by(product: Rule, sheet: &Sheet, cube: &Cube) -> Vec<Option<Interval>> {
    let mut all = Vec::with_capacity(sheet.records.len());
    for record in &sheet.records {
        all.push(of_record(record, &all, cube, product));
    }
    all
}

/// The first record with an end of its bounds over a closed cube outside -furthest to furthest. Its bounds are exact,
/// since those of its operands lie inside.
pub fn first_past(furthest: i128, sheet: &Sheet, cube: &Cube) -> Option<Past> {
    first_past_by(Interval::product, furthest, sheet, cube)
}

pub fn first_past_by(product: Rule, furthest: i128, sheet: &Sheet, cube: &Cube) -> Option<Past> {
    let mut all = Vec::with_capacity(sheet.records.len());
    for (number, record) in sheet.records.iter().enumerate() {
        let bounds = of_record(record, &all, cube, product);
        if let Some(end) = bounds.and_then(|of| of.end_outside(furthest)) {
            return Some(Past {
                record: number,
                end,
            });
        }
        all.push(bounds);
    }
    None
}

/// Every arithmetic record's bounds over the root must lie in -2^60 to 2^60, used by the solid or not. Otherwise
/// reply 7, by the first record whose bounds do not.
pub fn within_limit(sheet: &Sheet, root: &Root) -> Result<(), Refusal> {
    match first_past(FURTHEST, sheet, &root.cube()) {
        Some(past) => Err(reply(7, past.number())),
        None => Ok(()),
    }
}
