//! Products of two intervals of every sign, with ends at and next to 0, 2^30 and 2^60.
//!
//! A product's bounds cannot be read off a map, so numbers are added to it until an end of the sum is 2^60 or -2^60,
//! which is accepted, or one further, which is refused by 7 with the record of that sum and its end.

use crate::builds::Made;
use crate::maker::Maker;
use crate::plan;
use crate::random::Random;
use crate::spans::{built, exact, number, operand, Span};
use paper::bounds::{Interval, FURTHEST};
use paper::sheet::{self, Record::*};
use std::sync::OnceLock;

/// The ends of the operands. The product of 2^30 - 1 and 2^30 + 1 is 2^60 - 1, and that of the last two but one is
/// 2^60 + 1.
const ENDS: [i64; 13] = [
    -(1 << 60),
    -4_562_284_561,
    -(1 << 30) - 1,
    -(1 << 30),
    -1,
    0,
    1,
    (1 << 30) - 1,
    1 << 30,
    (1 << 30) + 1,
    252_707_057,
    4_562_284_561,
    1 << 60,
];

/// Both ends accepted at the limit, the high end refused past it, and the low end.
const PROBES: u64 = 3;

/// The sign cases of two operands.
const SIGNS: [[&str; 3]; 3] = [
    [
        "product: above by above",
        "product: above by below",
        "product: above by across",
    ],
    [
        "product: below by above",
        "product: below by below",
        "product: below by across",
    ],
    [
        "product: across by above",
        "product: across by below",
        "product: across by across",
    ],
];

/// Every interval between two ends, from each end to itself too.
pub fn operands() -> Vec<Span> {
    let mut ends = ENDS;
    ends.sort();
    let from = |i: usize| ends[i..].iter().map(move |&b| [ends[i], b]);
    (0..ends.len()).flat_map(from).collect()
}

/// A pair of operands, and which ends of their product are probed.
type Pair = (Span, Span, u64);

/// Each pair of operands: with every probe if the product is within the limit, and otherwise once, since it is refused
/// whatever is added to it.
fn pairs() -> &'static [Pair] {
    static PAIRS: OnceLock<Vec<Pair>> = OnceLock::new();
    PAIRS.get_or_init(|| {
        let all = operands();
        let probes = |&first, &second| {
            let past = exact(first).product(exact(second)).passes(FURTHEST);
            (0..if past { 1 } else { PROBES }).map(move |probe| (first, second, probe))
        };
        let each = |first| all.iter().flat_map(move |second| probes(first, second));
        all.iter().flat_map(each).collect()
    })
}

pub fn cases() -> u64 {
    pairs().len() as u64
}

/// The build with a given case number.
pub fn any(number: u64, random: &mut Random) -> Made {
    let (first, second, probe) = pairs()[number as usize % pairs().len()];
    let mut maker = Maker::default();
    let (a, b) = (operand(&mut maker, first), operand(&mut maker, second));
    let product = maker.add(Product(a, b));
    let bounds = exact(first).product(exact(second));
    if !bounds.passes(FURTHEST) {
        probed(&mut maker, product, bounds, probe);
    }
    let solid = maker.add(Face(product));
    let sheet = sheet::write(plan::version(random), &maker.with_solid(solid));
    Made {
        labels: vec![SIGNS[sign(first)][sign(second)]],
        case: built(sheet, random),
    }
}

/// Above zero, below zero, or across it.
pub fn sign([low, high]: Span) -> usize {
    match () {
        _ if low >= 0 => 0,
        _ if high <= 0 => 1,
        _ => 2,
    }
}

/// Adds what brings an end of the product to the limit, or one past it.
fn probed(maker: &mut Maker, product: usize, bounds: Interval, probe: u64) {
    let (up, down) = (FURTHEST - bounds.high, -FURTHEST - bounds.low);
    match probe {
        0 => {
            raised(maker, product, up);
            raised(maker, product, down);
        }
        1 => raised(maker, product, up + 1),
        _ => raised(maker, product, down - 1),
    }
}

/// The record plus a number, which may be too large for one record: then it is added in two steps.
fn raised(maker: &mut Maker, record: usize, by: i128) {
    let first = by.clamp(-FURTHEST, FURTHEST);
    let step = number(maker, first as i64);
    let there = maker.add(Sum(record, step));
    if first != by {
        let rest = number(maker, (by - first) as i64);
        maker.add(Sum(there, rest));
    }
}
