//! The record that reply 7 is about: the first whose bounds over the root pass 2^60.

use crate::case::Case;
use paper::bounds::{self, Interval, Past, FURTHEST};
use paper::root::Cube;
use paper::sheet::{self, Record, Sheet};

pub struct Fault {
    pub sheet: Sheet,
    pub root: Cube,
    pub past: Past,
}

/// Where the two ends lie, if bounds pass the limit.
pub const WAYS: [&str; 5] = [
    "both ends below",
    "the low end below",
    "an end on either side",
    "the high end above",
    "both ends above",
];

impl Fault {
    /// The fault of a case, whatever is tested before it.
    pub fn of(case: &Case) -> Option<Fault> {
        let sheet = sheet::read(case.sheet()?).ok()?;
        let root = case.root()?.cube();
        let past = bounds::first_past(FURTHEST, &sheet, &root)?;
        Some(Fault { sheet, root, past })
    }

    pub fn record(&self) -> &Record {
        &self.sheet.records[self.past.record]
    }

    /// The bounds of the records before it.
    pub fn before(&self) -> Vec<Option<Interval>> {
        let version = self.sheet.version;
        let records = self.sheet.records[..self.past.record].to_vec();
        bounds::over(&Sheet { version, records }, &self.root)
    }

    /// Its own bounds, from those of the records before it.
    pub fn bounds_from(&self, before: &[Option<Interval>]) -> Interval {
        let bounds = bounds::of_record(self.record(), before, &self.root, Interval::product);
        bounds.expect("it is arithmetic")
    }

    pub fn bounds(&self) -> Interval {
        self.bounds_from(&self.before())
    }

    /// Which of the ways it is: below, within and above are 0, 1 and 2, and the ways are in the order of their sums.
    pub fn way(&self) -> usize {
        let side = |end: i128| usize::from(end >= -FURTHEST) + usize::from(end > FURTHEST);
        let Interval { low, high } = self.bounds();
        side(low) + side(high)
    }
}
