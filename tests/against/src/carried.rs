//! Builds of sheets over which carrying down (request 2026-13) can go wrong: what a cube decides differs from what its siblings decide, deep
//! down, and records are read by many, twice, or never.

use crate::builds::{self, Made};
use crate::mentions::joined;
use crate::plan::{self, Plan};
use crate::random::Random;
use crate::rooms::{drawn, Drawing, Shape};
use crate::trees::*;
use paper::sheet::{Record::*, MOST_RECORDS};

const LASTING: &str = "carried: a little less at each level";

/// From `LASTING` on they are deep down.
const SHAPES: [(&str, Shape); 18] = [
    ("carried: a chain", chain),
    ("carried: a long chain", long_chain),
    ("carried: a balanced tree", balanced),
    ("carried: both, either and complement in turn", in_turn),
    ("carried: records read by many", shared),
    ("carried: records never read", with_unread),
    ("carried: records read twice by one", read_twice),
    ("carried: a complement of a complement", turned_twice),
    ("carried: decided or one face all over", decided),
    ("carried: the solid is a face", face_last),
    (
        "carried: 256 records, the solid reads the first",
        reads_first,
    ),
    ("carried: 256 records, the solid reads the last", reads_last),
    ("carried: without x, y or z", without_axes),
    (LASTING, lasting),
    ("carried: a chain, deep down", |drawing| {
        deep_down(drawing, chain)
    }),
    ("carried: a balanced tree, deep down", |drawing| {
        deep_down(drawing, balanced)
    }),
    ("carried: records read by many, deep down", |drawing| {
        deep_down(drawing, shared)
    }),
    ("carried: records never read, deep down", |drawing| {
        deep_down(drawing, with_unread)
    }),
];

/// The build with a given case number.
pub fn any(number: u64, random: &mut Random) -> Made {
    let mut plan = plan(number, random);
    let most = most_leaves(random);
    let leaves = plan.choose_depth(random, most);
    builds::of_plan(&plan, leaves, random)
}

/// The sheet and the root of a build, of depth 0, with the shape of a given number.
pub fn plan(number: u64, random: &mut Random) -> Plan {
    let (label, shape) = SHAPES[number as usize % SHAPES.len()];
    let k = random.between(3, 10).max(random.between(0, 9)) as u8;
    let k = if random.once_in(12) { k % 3 } else { k };
    let root = plan::root(random, k);
    let plan = drawn(random, root, label, shape);
    assert!(plan.records.len() <= MOST_RECORDS);
    plan
}

/// A sheet of which some cubes are gray at each level, and not many, over a root of side 2^8 at least.
pub fn deep_plan(random: &mut Random) -> Plan {
    let first = SHAPES.iter().position(|(label, _)| *label == LASTING);
    let first = first.expect("it is one of them");
    loop {
        let number = first + random.below(SHAPES.len() - first);
        let plan = plan(number as u64, random);
        if plan.root.k >= 8 {
            return plan;
        }
    }
}

/// Mostly small maps, since there can be 256 records.
fn most_leaves(random: &mut Random) -> usize {
    match random.below(40) {
        0 => 3_000,
        1..=5 => 800,
        _ => 250,
    }
}

/// Adds a few records that nothing reads.
fn add_unread(drawing: &mut Drawing, logical: usize) {
    drawing.maker.share = false;
    for _ in 0..drawing.random.between(1, 4) {
        let axis = drawing.random.below(3);
        let along = drawing.maker.axis(axis);
        match drawing.random.below(3) {
            0 => drawing.maker.add(Sum(along, along)),
            1 => drawing.maker.add(Face(along)),
            _ => drawing.maker.add(Both(logical, logical)),
        };
    }
}

/// They stand anywhere, and often just before the solid.
fn with_unread(drawing: &mut Drawing) -> usize {
    let first = chain(drawing);
    add_unread(drawing, first);
    let second = chain(drawing);
    if drawing.random.once_in(2) {
        add_unread(drawing, second);
    }
    joined(drawing, first, second)
}

/// A square as a product, sums and differences of a record with itself, and both and either of one record.
fn read_twice(drawing: &mut Drawing) -> usize {
    let point = drawing.centre();
    let [along, across] = [0, 1].map(|axis| offset(drawing, axis, point[axis]));
    let values = [
        Product(along, along),
        Sum(across, across),
        Difference(along, along),
    ];
    let values = values.map(|record| drawing.maker.add(record));
    let limit = drawing.size().min(1_000);
    let limit = drawing.maker.constant(limit);
    let own = values.map(|value| drawing.maker.at_most(value, limit));
    let other = faces(drawing, 2);
    let mut solid = chained(drawing, &[own.as_slice(), &other].concat(), 3);
    for kind in [Both, Either] {
        let twice = drawing.maker.add(kind(solid, solid));
        let face = drawing.random.pick(&other);
        solid = joined(drawing, twice, face);
    }
    solid
}

fn turned_twice(drawing: &mut Drawing) -> usize {
    let solid = chain(drawing);
    let turned_once = turned(drawing, solid);
    turned(drawing, turned_once)
}

/// A tree that a face outside the root decides, or leaves to one face.
fn decided(drawing: &mut Drawing) -> usize {
    let tree = chain(drawing);
    let high = i64::from(drawing.root.low[0]) + (1 << drawing.root.k);
    let (x, beyond) = (drawing.maker.axis(0), drawing.maker.constant(high + 1));
    let (holds, fails) = (
        drawing.maker.at_most(x, beyond),
        drawing.maker.at_most(beyond, x),
    );
    match drawing.random.below(4) {
        0 => drawing.maker.add(Either(tree, holds)),
        1 => drawing.maker.add(Both(tree, fails)),
        _ => {
            let nothing = drawing.maker.add(Both(tree, fails));
            let face = faces(drawing, 1)[0];
            drawing.maker.add(Either(nothing, face))
        }
    }
}

/// A face after a tree that nothing reads.
fn face_last(drawing: &mut Drawing) -> usize {
    chain(drawing);
    let along = drawing.random.below(3);
    let along = drawing.maker.axis(along);
    drawing.maker.share = false;
    drawing.maker.add(Face(along))
}

/// Fills the sheet with links of a chain, but for a few records, and returns the last.
fn filled(drawing: &mut Drawing, less: usize) -> usize {
    drawing.maker.share = false;
    let faces = faces(drawing, 8);
    let links = room(drawing, less);
    chained(drawing, &faces, links)
}

/// Record 0 is x, and the solid is its face; or record 1 is the face, and the solid joins it with record 254.
fn reads_first(drawing: &mut Drawing) -> usize {
    let x = drawing.maker.axis(0);
    if drawing.random.once_in(4) {
        filled(drawing, 1);
        return drawing.maker.add(Face(x));
    }
    let first = drawing.maker.add(Face(x));
    let last = filled(drawing, 1);
    joined(drawing, first, last)
}

/// Record 254 is what the solid turns, or it is a number whose face is the solid.
fn reads_last(drawing: &mut Drawing) -> usize {
    if drawing.random.once_in(4) {
        filled(drawing, 2);
        let sum = drawing.maker.add(Sum(0, 0));
        return drawing.maker.add(Face(sum));
    }
    let last = filled(drawing, 1);
    turned(drawing, last)
}

/// One axis is missing, or two, or all, so that there are only constants.
fn without_axes(drawing: &mut Drawing) -> usize {
    let axes: [&[usize]; 6] = [&[0], &[1], &[2], &[0, 1], &[0, 2], &[1, 2]];
    if !drawing.random.once_in(6) {
        let axes = drawing.random.pick(&axes);
        let faces = faces_along(drawing, 6, axes);
        return chained(drawing, &faces, 9);
    }
    let numbers = [-1, 0, 1].map(|at| drawing.maker.constant(at));
    let faces = numbers.map(|number| drawing.maker.add(Face(number)));
    chained(drawing, &faces, 5)
}

/// A long chain of faces through one point, cut by planes nearer and nearer to it. Around the point one of them is decided at each level, so
/// that the tapes of a cube and of those that it lies in are all long.
fn lasting(drawing: &mut Drawing) -> usize {
    drawing.maker.share = true;
    let side = 1i64 << drawing.root.k;
    let point = drawing.root.low.map(|low| i64::from(low) + side / 3);
    let through = |_| face_through(drawing, point, &[0, 1, 2]);
    let around: Vec<usize> = (0..10).map(through).collect();
    let mut solid = around[0];
    for _ in 0..room(drawing, 60) {
        let face = drawing.random.pick(&around);
        solid = joined(drawing, solid, face);
    }
    for nearer in 1..=drawing.root.k.into() {
        let (axis, away) = (nearer % 3, side >> nearer);
        let along = drawing.maker.axis(axis);
        let within = if nearer % 2 == 0 {
            let high = drawing.maker.constant(point[axis] + away);
            drawing.maker.at_most(along, high)
        } else {
            let low = drawing.maker.constant(point[axis] - away);
            drawing.maker.at_most(low, along)
        };
        solid = drawing.maker.add(Both(solid, within));
    }
    solid
}

/// A shape in a small cube of the root, cut off by a box, so that few cubes are gray and the map can be deep.
fn deep_down(drawing: &mut Drawing, shape: Shape) -> usize {
    let whole = drawing.root;
    let halvings = drawing.random.between(3, 5);
    let k = (i64::from(whole.k) - halvings).max(0);
    let (side, most) = (1 << k, (1 << whole.k) - (1 << k));
    let mut within = |low| low + drawing.random.between(0, most) as i32;
    let low = whole.low.map(&mut within);
    (drawing.root.low, drawing.root.k) = (low, k as u8);
    let solid = shape(drawing);
    drawing.root = whole;
    let [x, y, z] = low.map(|low| [i64::from(low), i64::from(low) + side]);
    let plan = drawing.maker.rectangle(x, y);
    let heights = drawing.maker.between(2, z[0], z[1]);
    let part = drawing.maker.add(Both(plan, heights));
    drawing.maker.add(Both(solid, part))
}
