//! Records with each end of their bounds at, next to or past 2^60 and -2^60, by a sum, a difference, a product or a
//! square, so that reply 7 has to say which end. Each is given to a build, to a refine and to a lookup.

use crate::builds::Made;
use crate::case::{Case, Lookup, Refine, PLACINGS, PLACINGS_OF_THREE};
use crate::maker::Maker;
use crate::maps;
use crate::plan;
use crate::products::{self, sign};
use crate::random::Random;
use crate::spans::{built, exact, operand, Span, ROOT};
use paper::bounds::{Interval, FURTHEST};
use paper::colour::{Colour, BLACK, GRAY, TERMINAL, WHITE};
use paper::map::{self, Leaf, HEADER, LEAF};
use paper::sheet::{self, Record, MOST_RECORDS};
use std::collections::{BTreeMap, BTreeSet};
use std::sync::OnceLock;

const LIMIT: i64 = FURTHEST as i64;

/// A number for each place where an end may lie: far below -2^60, next to it, at it, next to it again, and likewise up
/// to far above 2^60.
const PLACES: [i64; 9] = [
    -2 * LIMIT,
    -LIMIT - 1,
    -LIMIT,
    -LIMIT + 1,
    0,
    LIMIT - 1,
    LIMIT,
    LIMIT + 1,
    2 * LIMIT,
];

/// A record, by the bounds of its operands.
#[derive(Clone, Copy, Debug, PartialEq, Eq, PartialOrd, Ord)]
enum Probe {
    Sum(Span, Span),
    Difference(Span, Span),
    Product(Span, Span),
    Square(Span),
}

impl Probe {
    fn bounds(self) -> Interval {
        match self {
            Probe::Sum(a, b) => exact(a).sum(exact(b)),
            Probe::Difference(a, b) => exact(a).difference(exact(b)),
            Probe::Product(a, b) => exact(a).product(exact(b)),
            Probe::Square(a) => exact(a).square(),
        }
    }

    fn label(self) -> &'static str {
        match self {
            Probe::Sum(..) => "ends: of a sum",
            Probe::Difference(..) => "ends: of a difference",
            Probe::Product(..) => "ends: of a product",
            Probe::Square(_) => "ends: of a square",
        }
    }

    /// Adds the operands, and then the record.
    fn add(self, maker: &mut Maker) -> usize {
        let mut of = |span| operand(maker, span);
        let record = match self {
            Probe::Sum(a, b) => Record::Sum(of(a), of(b)),
            Probe::Difference(a, b) => Record::Difference(of(a), of(b)),
            Probe::Product(a, b) => Record::Product(of(a), of(b)),
            Probe::Square(a) => Record::Square(of(a)),
        };
        maker.add(record)
    }
}

/// Every interval between two places.
fn targets() -> impl Iterator<Item = Span> {
    let from = |i: usize| PLACES[i..].iter().map(move |&high| [PLACES[i], high]);
    (0..PLACES.len()).flat_map(from)
}

/// The two parts of an end: halves, or as much as a record can have and the rest.
const PARTS: [fn(i64) -> [i64; 2]; 2] = [
    |end| [end.div_euclid(2), end - end.div_euclid(2)],
    |end| {
        let most = end.clamp(-LIMIT, LIMIT);
        [most, end - most]
    },
];

/// The pairs of operands whose sum is a target, each in both orders.
fn sums() -> impl Iterator<Item = [Span; 2]> {
    let operands = |parts: fn(i64) -> [i64; 2]| {
        targets().flat_map(move |target| {
            let [[a, c], [b, d]] = target.map(parts);
            [[[a, b], [c, d]], [[c, d], [a, b]]]
        })
    };
    PARTS.into_iter().flat_map(operands)
}

fn negative([low, high]: Span) -> Span {
    [-high, -low]
}

/// The place where an end lies, by its number.
fn place(end: i128) -> i128 {
    let is_near = |limit: i128| (end - limit).abs() <= 1;
    match () {
        _ if is_near(FURTHEST) || is_near(-FURTHEST) => end,
        _ if end < -FURTHEST => -2 * FURTHEST,
        _ if end > FURTHEST => 2 * FURTHEST,
        _ => 0,
    }
}

/// One product for each combination of its ends' places and its operands' signs. Not every two places can be the ends
/// of a product: 2^60 - 1, 2^60 and 2^60 + 1 have no factor in common.
fn some_products() -> impl Iterator<Item = Probe> {
    let all = products::operands();
    let pairs = all.iter().flat_map(|a| all.iter().map(move |b| (*a, *b)));
    let mut found = BTreeMap::new();
    for (a, b) in pairs {
        let probe = Probe::Product(a, b);
        let Interval { low, high } = probe.bounds();
        let places = [place(low), place(high)];
        found.entry((places, sign(a), sign(b))).or_insert(probe);
    }
    found.into_values()
}

/// A record for each way to pass the limit, by one.
const PAST: [Probe; 5] = [
    Probe::Sum([-LIMIT, -LIMIT], [-1, -1]),
    Probe::Sum([-LIMIT, 0], [-1, 0]),
    Probe::Sum([-LIMIT, LIMIT], [-1, 1]),
    Probe::Sum([0, LIMIT], [0, 1]),
    Probe::Sum([LIMIT, LIMIT], [1, 1]),
];

/// Two records past the limit, of which the first decides.
fn twos() -> impl Iterator<Item = Vec<Probe>> {
    let after = |first: Probe| PAST.into_iter().map(move |second| vec![first, second]);
    PAST.into_iter().flat_map(after)
}

/// All sheets, by the records that are probed. None is there twice.
fn sheets() -> &'static [Vec<Probe>] {
    static SHEETS: OnceLock<Vec<Vec<Probe>>> = OnceLock::new();
    SHEETS.get_or_init(|| {
        let squares = products::operands().into_iter().map(Probe::Square);
        let ones = sums()
            .map(|[a, b]| Probe::Sum(a, b))
            .chain(sums().map(|[a, b]| Probe::Difference(a, negative(b))))
            .chain(some_products())
            .chain(squares);
        let all = ones.map(|one| vec![one]).chain(twos());
        let different: BTreeSet<Vec<Probe>> = all.collect();
        different.into_iter().collect()
    })
}

/// The number of sheets, each of which is given to all three calls.
pub fn sheet_cases() -> u64 {
    sheets().len() as u64
}

pub fn cases() -> u64 {
    3 * sheet_cases()
}

/// The build, the lookup or the refine with a given case number.
pub fn any(number: u64, random: &mut Random) -> Made {
    match number % 3 {
        0 => build(number / 3, random),
        1 => lookup(number / 3, random),
        _ => refine(number / 3, random),
    }
}

/// The build of a sheet, chosen by number.
pub fn build(number: u64, random: &mut Random) -> Made {
    let (labels, records) = chosen(number, random);
    let case = built(sheet::write(plan::version(random), &records), random);
    Made { labels, case }
}

/// A lookup by a sheet, chosen by number, in a map over the same root.
pub fn lookup(number: u64, random: &mut Random) -> Made {
    let (labels, records) = chosen(number, random);
    let case = Case::Lookup(Lookup {
        placing: random.below(PLACINGS) as u8,
        sheet: sheet::write(plan::version(random), &records),
        map: one_leaf((records.len() - 1) as u8, random),
        points: vec![maps::point(&ROOT, random)],
    });
    Made { labels, case }
}

/// A refine by a sheet, chosen by number, of a map over the same root.
pub fn refine(number: u64, random: &mut Random) -> Made {
    let (labels, records) = chosen(number, random);
    let case = Case::Refine(Refine {
        placing: random.below(PLACINGS_OF_THREE) as u8,
        sheet: sheet::write(plan::version(random), &records),
        map: one_leaf((records.len() - 1) as u8, random),
        d: 0,
        out_len: HEADER + LEAF,
        out_seed: random.word() | 1,
    });
    Made { labels, case }
}

/// A map of one leaf, which may be terminal by this face.
fn one_leaf(face: u8, random: &mut Random) -> Vec<u8> {
    let plain = |class| Colour { class, face: 0 };
    let terminal = Colour {
        class: TERMINAL,
        face,
    };
    let colour = random.pick(&[plain(WHITE), plain(BLACK), plain(GRAY), terminal]);
    map::write(&ROOT, &[Leaf { level: 0, colour }])
}

/// The labels and the records of a sheet, chosen by number. Some records come first that are not used: one, so that no
/// sheet is one of `products`, or up to as many as there is room for, so that the number in reply 7 may be large.
fn chosen(number: u64, random: &mut Random) -> (Vec<&'static str>, Vec<Record>) {
    let probes = &sheets()[number as usize % sheets().len()];
    let most = MOST_RECORDS - records(probes, 0).len();
    let unused = random.between(1, most as i64) as usize;
    let unused = random.pick(&[1, 1, unused, most]);
    let label = match probes[..] {
        [one] => one.label(),
        _ => "ends: of two records",
    };
    (vec![label], records(probes, unused))
}

/// Some records that are not used, those that are probed, and a face of the last.
fn records(probes: &[Probe], unused: usize) -> Vec<Record> {
    let mut maker = Maker::default();
    maker.records.resize(unused, Record::X);
    let probed = probes.iter().map(|probe| probe.add(&mut maker)).last();
    let solid = maker.add(Record::Face(probed.expect("at least one is probed")));
    maker.with_solid(solid)
}

#[cfg(test)]
mod tests {
    use super::*;
    use crate::fault::{Fault, WAYS};
    use crate::group::Make;
    use paper::bounds;
    use paper::sheet::{Sheet, Version::One};

    /// The cases of one call.
    fn made(make: Make) -> Vec<Case> {
        let case = |number| make(number, &mut Random::of_case(1, "ends", number)).case;
        (0..sheet_cases()).map(case).collect()
    }

    /// The records that are probed alone.
    fn ones() -> Vec<Probe> {
        let alone = sheets().iter().filter(|probes| probes.len() == 1);
        alone.map(|probes| probes[0]).collect()
    }

    #[test]
    fn sums_and_differences_have_every_two_places() {
        let places = |is: fn(&Probe) -> bool| {
            let bounds = ones().into_iter().filter(is).map(Probe::bounds);
            let both = bounds.map(|of| [place(of.low), place(of.high)]);
            both.collect::<BTreeSet<_>>()
        };
        let all: BTreeSet<_> = targets().map(|ends| ends.map(i128::from)).collect();
        assert_eq!(all.len(), 45);
        assert_eq!(places(|probe| matches!(probe, Probe::Sum(..))), all);
        assert_eq!(places(|probe| matches!(probe, Probe::Difference(..))), all);
    }

    /// The bounds are as they should be, and all records before are within the limit.
    #[test]
    fn the_record_that_is_probed_is_the_first_past_the_limit() {
        for probe in ones() {
            let sheet = Sheet {
                version: One,
                records: records(&[probe], 1),
            };
            let probed = sheet.records.len() - 2;
            let bounds = bounds::over(&sheet, &ROOT.cube());
            assert_eq!(bounds[probed], Some(probe.bounds()));
            let past = bounds::first_past(FURTHEST, &sheet, &ROOT.cube());
            let is_past = probe.bounds().passes(FURTHEST);
            assert_eq!(past.map(|past| past.record), is_past.then_some(probed));
        }
    }

    #[test]
    fn both_calls_reach_every_way_and_no_sheet_is_made_twice() {
        for make in [build, lookup, refine] {
            let cases = made(make);
            let sheets: BTreeSet<_> = cases.iter().map(Case::sheet).collect();
            assert_eq!(sheets.len(), cases.len());
            let faults: Vec<Fault> = cases.iter().filter_map(Fault::of).collect();
            let ways: BTreeSet<_> = faults.iter().map(Fault::way).collect();
            assert_eq!(ways.len(), WAYS.len());
            // Some numbers of reply 7 need more than a byte.
            assert!(faults.iter().any(|fault| fault.past.number() > 255));
        }
    }
}
