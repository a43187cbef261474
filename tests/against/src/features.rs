//! What a case has that is worth counting.

use crate::case::{Build, Lookup};
use crate::{meetings, zeros};
use paper::bounds::{self, FURTHEST as LIMIT};
use paper::map::HEADER;
use paper::root::{Cube, Root, FURTHEST};
use paper::sheet::{self, Record, Sheet};

/// The name of a feature, and whether it is present.
type Named = (&'static str, bool);

fn names(all: &[Named]) -> Vec<&'static str> {
    let true_ones = all.iter().filter(|(_, is_true)| *is_true);
    true_ones.map(|(name, _)| *name).collect()
}

/// Features of a build: its root and depth, and its sheet if that is good.
pub fn of_build(build: &Build) -> Vec<&'static str> {
    let root = &build.root;
    let mut found = of_root(root);
    if let Ok(sheet) = sheet::read(&build.sheet) {
        found.extend(of_sheet(&sheet));
        if root.in_limits() {
            found.extend(of_bounds(&sheet, root));
        }
    }
    found
}

fn of_root(root: &Root) -> Vec<&'static str> {
    let small = Root { d: 0, ..*root };
    let reaches = || {
        let cube = small.cube();
        (0..3).any(|axis| cube.low[axis] == -FURTHEST || cube.high(axis) == FURTHEST)
    };
    let within = small.in_limits();
    names(&[
        ("root: k over 16", root.k > 16),
        ("root: d over 10 or over k", root.d > 10 || root.d > root.k),
        ("root: a corner too far", root.k <= 16 && !within),
        ("root: reaches 2^20 or -2^20", within && reaches()),
    ])
}

fn of_sheet(sheet: &Sheet) -> Vec<&'static str> {
    let records = &sheet.records;
    let uses = |number: usize| {
        let operands = records.iter().flat_map(Record::operands);
        operands.filter(|&operand| operand == number).count()
    };
    let is_face = |number: &usize| sheet.is_face(*number);
    let is_end =
        |record: &Record| matches!(record, Record::Constant(c) if *c == i32::MIN || *c == i32::MAX);
    let is_complement = |p: usize| matches!(records[p], Record::Complement(_));
    let twice = |record: &Record| matches!(*record, Record::Complement(p) if is_complement(p));
    let all = 0..records.len();
    let before_last = 0..records.len() - 1;
    names(&[
        ("records: 256", records.len() == sheet::MOST_RECORDS),
        (
            "records: one unused",
            before_last.clone().any(|number| uses(number) == 0),
        ),
        (
            "records: an operand shared",
            before_last.clone().any(|number| uses(number) > 1),
        ),
        (
            "records: a face used twice",
            all.filter(is_face).any(|number| uses(number) > 1),
        ),
        (
            "records: a complement of a complement",
            records.iter().any(twice),
        ),
        (
            "records: a constant at an end of 32 bits",
            records.iter().any(is_end),
        ),
    ])
}

/// Features of a sheet over a root in limits: of its bounds and, within their limit, of its states.
fn of_bounds(sheet: &Sheet, root: &Root) -> Vec<&'static str> {
    let is_past = |furthest| bounds::first_past(furthest, sheet, &root.cube()).is_some();
    let passed = is_past(LIMIT);
    let reached = !passed && is_past(LIMIT - 1);
    let mut found = names(&[
        ("bounds: 2^60 passed", passed),
        ("bounds: 2^60 reached, not passed", reached),
    ]);
    if !passed {
        found.extend(meetings::of_build(sheet, root));
        found.extend(zeros::of_build(sheet, root));
    }
    found
}

/// Features of a map's length.
pub fn of_length(bytes: u64) -> &'static str {
    match bytes {
        0..=22 => "map built: one leaf",
        23..=1_000 => "map built: up to a kilobyte",
        1_001..=100_000 => "map built: up to 100 kilobytes",
        100_001..=1_000_000 => "map built: up to a megabyte",
        _ => "map built: over a megabyte",
    }
}

/// Features of a point of a lookup, by the root in the map's header; none without a header.
pub fn of_point(lookup: &Lookup, point: [i32; 3]) -> Vec<&'static str> {
    let Some(header) = lookup.map.get(..HEADER) else {
        return vec![];
    };
    let root = paper::map::root(header);
    if !root.in_limits() {
        return vec![];
    }
    let cube = root.cube();
    let at = |plane: fn(&Cube, usize) -> i64| {
        (0..3).any(|axis| i64::from(point[axis]) == plane(&cube, axis))
    };
    let is_end = |at: &i32| *at == i32::MIN || *at == i32::MAX;
    names(&[
        ("point: in the root", cube.holds(point)),
        (
            "point: next to a low plane of the root",
            at(|cube, axis| cube.low[axis] - 1),
        ),
        (
            "point: on a low plane of the root",
            at(|cube, axis| cube.low[axis]),
        ),
        (
            "point: next to a high plane of the root",
            at(|cube, axis| cube.high(axis) - 1),
        ),
        ("point: on a high plane of the root", at(Cube::high)),
        ("point: at an end of 32 bits", point.iter().any(is_end)),
    ])
}
