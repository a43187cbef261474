//! Shrinks a case that shows a difference, as long as it still shows one.

use crate::case::{Build, Case, Lent, Lookup, Refine};
use crate::damage_maps::tell_length;
use crate::expect::by_paper;
use crate::plan;
use crate::server::Server;
use paper::map::{HEADER, LEAF};
use paper::root::Root;
use paper::sheet::{self, Record, Sheet, Version::One};
use std::time::{Duration, Instant};

const MOST_TRIES: usize = 10_000;
const MOST_TIME: Duration = Duration::from_secs(60);
/// A sheet with fewer records may have a map of a billion leaves; such a case is not tried.
const MOST_LEAVES: usize = 5_000;

/// The smallest case found by repeatedly taking the first smaller one that still differs.
pub fn shrunk(case: &Case, server: &mut Server) -> Case {
    smallest(case, &mut |smaller| {
        server.ask(smaller) != Ok(by_paper(smaller))
    })
}

fn smallest(case: &Case, differs: &mut dyn FnMut(&Case) -> bool) -> Case {
    let start = Instant::now();
    let mut tries = 0;
    let mut goes_on = || {
        tries += 1;
        tries <= MOST_TRIES && start.elapsed() < MOST_TIME
    };
    let mut best = case.clone();
    while let Some(next) = {
        let mut candidates = smaller(&best).take_while(|_| goes_on());
        candidates.find(&mut *differs)
    } {
        best = next;
    }
    best
}

/// Candidates, made lazily, since a map may be large and there are many smaller ones.
type Tries<'a, T> = Box<dyn Iterator<Item = T> + 'a>;

/// Slightly simpler cases, the largest steps first.
fn smaller(case: &Case) -> Tries<'_, Case> {
    match case {
        Case::Check(lent) => {
            let sheets = smaller_sheets(&lent.bytes);
            Box::new(smaller_lent(lent, sheets).map(Case::Check))
        }
        Case::Open(lent) => {
            let maps = smaller_maps(&lent.bytes);
            Box::new(smaller_lent(lent, maps).map(Case::Open))
        }
        Case::Build(build) => Box::new(smaller_builds(build).map(Case::Build)),
        Case::Refine(refine) => Box::new(smaller_refines(refine).map(Case::Refine)),
        Case::Lookup(lookup) => Box::new(smaller_lookups(lookup).map(Case::Lookup)),
    }
}

/// A copy with one change.
fn with<T: Clone>(one: &T, change: impl FnOnce(&mut T)) -> T {
    let mut other = one.clone();
    change(&mut other);
    other
}

fn smaller_lent<'a>(
    lent: &'a Lent,
    all: impl Iterator<Item = Vec<u8>> + 'a,
) -> impl Iterator<Item = Lent> + 'a {
    all.map(|bytes| with(lent, |other| other.bytes = bytes))
        .chain([with(lent, |other| other.placing = 0)])
        .filter(move |other| other != lent)
}

fn smaller_builds(build: &Build) -> impl Iterator<Item = Build> + '_ {
    let sheets = smaller_sheets(&build.sheet);
    let roots = smaller_roots(&build.root).into_iter();
    let lengths = [0, build.out_len / 2, build.out_len.saturating_sub(1)];
    sheets
        .map(|sheet| with(build, |other| other.sheet = sheet))
        .chain(roots.map(|root| with(build, |other| other.root = root)))
        .chain(lengths.map(|out_len| with(build, |other| other.out_len = out_len)))
        .chain([with(build, |other| other.placing = 0)])
        .chain([with(build, |other| other.out_seed = 1)])
        .filter(move |other| other != build && is_modest(other))
}

fn is_modest(build: &Build) -> bool {
    plan::shallow(&build.sheet, &build.root, MOST_LEAVES) == build.root
}

/// Smaller depths, sheets and maps, and shorter buffers.
fn smaller_refines(refine: &Refine) -> impl Iterator<Item = Refine> + '_ {
    let sheets = smaller_sheets(&refine.sheet);
    let lengths = [0, refine.out_len / 2, refine.out_len.saturating_sub(1)];
    [0, refine.d / 2, refine.d.saturating_sub(1)]
        .into_iter()
        .map(|d| with(refine, |other| other.d = d))
        .chain(smaller_maps(&refine.map).map(|map| with(refine, |other| other.map = map)))
        .chain(sheets.map(|sheet| with(refine, |other| other.sheet = sheet)))
        .chain(lengths.map(|out_len| with(refine, |other| other.out_len = out_len)))
        .chain([with(refine, |other| other.placing = 0)])
        .chain([with(refine, |other| other.out_seed = 1)])
        .filter(move |other| other != refine && is_refined_modestly(other))
}

fn is_refined_modestly(refine: &Refine) -> bool {
    plan::shallow_refined(&refine.sheet, &refine.map, refine.d, MOST_LEAVES) == refine.d
}

fn smaller_lookups(lookup: &Lookup) -> impl Iterator<Item = Lookup> + '_ {
    let one_point = |&point: &[i32; 3]| with(lookup, |other| other.points = vec![point]);
    let halved = |axis: usize| {
        with(lookup, |other| {
            other.points.iter_mut().for_each(|point| point[axis] /= 2);
        })
    };
    let points = lookup.points.iter().map(one_point);
    points
        .chain(smaller_maps(&lookup.map).map(|map| with(lookup, |other| other.map = map)))
        .chain(smaller_sheets(&lookup.sheet).map(|sheet| with(lookup, |other| other.sheet = sheet)))
        .chain((0..3).map(halved))
        .chain([with(lookup, |other| other.placing = 0)])
        .filter(move |other| other != lookup)
}

fn smaller_roots(root: &Root) -> Vec<Root> {
    let mut roots = Vec::new();
    for d in [0, root.d / 2, root.d.saturating_sub(1)] {
        roots.push(Root { d, ..*root });
    }
    for k in [root.d, root.k / 2, root.k.saturating_sub(1)] {
        let d = root.d.min(k);
        roots.push(Root { k, d, ..*root });
    }
    for axis in 0..3 {
        for low in [0, root.low[axis] / 2] {
            roots.push(with(root, |other| other.low[axis] = low));
        }
    }
    roots
}

/// Shrinks a good sheet by its records, any other by its bytes.
fn smaller_sheets(bytes: &[u8]) -> Tries<'_, Vec<u8>> {
    match sheet::read(bytes) {
        Ok(sheet) => Box::new(smaller_records(&sheet).into_iter()),
        Err(_) => Box::new((0..bytes.len()).flat_map(|at| without_byte(bytes, at))),
    }
}

/// The first records only; a record left out; a constant nearer to 0; version 1.
fn smaller_records(sheet: &Sheet) -> Vec<Vec<u8>> {
    let mut sheets = Vec::new();
    let records = &sheet.records;
    let write = |records: &[Record]| sheet::write(sheet.version, records);
    for end in 1..records.len() {
        sheets.push(write(&records[..end]));
    }
    for dropped in (0..records.len()).rev() {
        let operands = records[dropped].operands();
        for instead in operands.into_iter().chain([0, dropped]) {
            sheets.extend(without(records, dropped, instead).map(|left| write(&left)));
        }
        for c in simpler_constants(&records[dropped]) {
            let simpler = with(records, |other| other[dropped] = Record::Constant(c));
            sheets.push(write(&simpler));
        }
    }
    if sheet.version != One {
        sheets.push(sheet::write(One, records));
    }
    sheets.retain(|bytes| sheet::read(bytes).is_ok());
    sheets
}

fn simpler_constants(record: &Record) -> Vec<i32> {
    match *record {
        Record::Constant(c) if c != 0 => vec![0, c / 2],
        _ => vec![],
    }
}

/// The records without one; records that used it use `instead`. None if it is used and `instead` is not an
/// earlier record of the same sort.
fn without(records: &[Record], dropped: usize, instead: usize) -> Option<Vec<Record>> {
    let used = records.iter().any(|r| r.operands().contains(&dropped));
    if used && (instead >= dropped || records[instead].sort() != records[dropped].sort()) {
        return None;
    }
    let moved = |a: usize| {
        let a = if a == dropped { instead } else { a };
        if a > dropped {
            a - 1
        } else {
            a
        }
    };
    let mut left: Vec<Record> = records.iter().map(|r| renumbered(r, &moved)).collect();
    left.remove(dropped);
    Some(left)
}

fn renumbered(record: &Record, to: &dyn Fn(usize) -> usize) -> Record {
    use Record::*;
    match *record {
        Constant(_) | X | Y | Z => record.clone(),
        Sum(a, b) => Sum(to(a), to(b)),
        Difference(a, b) => Difference(to(a), to(b)),
        Product(a, b) => Product(to(a), to(b)),
        Square(a) => Square(to(a)),
        Face(a) => Face(to(a)),
        Both(p, q) => Both(to(p), to(q)),
        Either(p, q) => Either(to(p), to(q)),
        Complement(p) => Complement(to(p)),
    }
}

/// A byte left out, with and without the length corrected; or set to 0.
fn without_byte(bytes: &[u8], at: usize) -> Vec<Vec<u8>> {
    let zeroed = with(&bytes.to_vec(), |other| other[at] = 0);
    let left = [&bytes[..at], &bytes[at + 1..]].concat();
    let mut told = left.clone();
    if told.len() >= 3 {
        let length = told.len() as u16 - 2;
        told[..2].copy_from_slice(&length.to_be_bytes());
    }
    vec![told, left, zeroed]
}

/// The first half of the leaves; eight leaves merged into one; a leaf left out; a byte set to 0.
fn smaller_maps(map: &[u8]) -> impl Iterator<Item = Vec<u8>> + '_ {
    let leaves = map.len().saturating_sub(HEADER) / LEAF;
    let offset = |leaf: usize| HEADER + LEAF * leaf;
    let with_leaves = move |from: usize, to: usize, instead: &[u8]| {
        let mut other = [&map[..offset(from)], instead, &map[offset(to)..]].concat();
        tell_length(&mut other);
        other
    };
    let first_half = (leaves > 1).then(|| with_leaves(leaves / 2, leaves, &[]));
    let joined = (8..=leaves).map(move |end| {
        let up = map[offset(end - 8)].saturating_sub(1);
        with_leaves(end - 8, end, &[up, 0, 0])
    });
    let left_out = (0..leaves).map(move |leaf| with_leaves(leaf, leaf + 1, &[]));
    let zeroed = (0..map.len()).map(|at| with(&map.to_vec(), |other| other[at] = 0));
    let shorter = first_half.into_iter().chain(joined).chain(left_out);
    shorter.chain(zeroed)
}

#[cfg(test)]
mod tests {
    use super::*;
    use crate::builds;
    use crate::random::Random;

    /// What remains is what the difference needs: here, a square.
    #[test]
    fn a_case_becomes_small() {
        let is_square = |record: &Record| matches!(record, Record::Square(_));
        let mut differs = |case: &Case| match case {
            Case::Build(build) => {
                sheet::read(&build.sheet).is_ok_and(|sheet| sheet.records.iter().any(is_square))
            }
            _ => false,
        };
        let mut random = Random::of_case(1, "shrink", 0);
        let made = std::iter::repeat_with(|| builds::any(1, &mut random).case);
        let case = made.take(100).find(|case| differs(case)).unwrap();
        let Case::Build(left) = smallest(&case, &mut differs) else {
            panic!("a build stays a build")
        };
        let records = sheet::read(&left.sheet).unwrap().records;
        assert!(records.len() <= 3, "{records:?}");
        assert_eq!((left.out_len, left.root.d, left.root.low), (0, 0, [0; 3]));
    }
}
