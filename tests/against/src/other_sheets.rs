//! Sheets beside another: the same faces by number, so that its maps open for them, but another solid.

use crate::plan::Plan;
use crate::random::Random;
use paper::sheet::{self, Record, Record::*};

/// Some constants, both, either and differences become others.
pub fn varied(plan: &Plan, random: &mut Random) -> Vec<u8> {
    let often = random.pick(&[2, 5, 20]);
    let by = (1i64 << plan.root.k) / random.pick(&[2, 8, 64]) + 1;
    let mut other = |record: &Record| {
        if !random.once_in(often) {
            return record.clone();
        }
        match *record {
            Constant(c) => {
                let moved = i64::from(c) + random.between(-by, by);
                Constant(moved.clamp(i32::MIN.into(), i32::MAX.into()) as i32)
            }
            Both(p, q) => Either(p, q),
            Either(p, q) => Both(p, q),
            Difference(a, b) => Difference(b, a),
            _ => record.clone(),
        }
    };
    let records: Vec<Record> = plan.records.iter().map(&mut other).collect();
    sheet::write(plan.version, &records)
}
