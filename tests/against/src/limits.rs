//! Values at and next to 2^60, and roots at and next to their limits.

use crate::graphs;
use crate::maker::Maker;
use crate::plan::{self, Plan};
use crate::random::Random;
use paper::root::{Root, FURTHEST};
use paper::sheet::Record::*;

/// A record whose bounds over the root end at 2^60 or -2^60, one off it or further away, used by the solid
/// or not.
pub fn value(random: &mut Random) -> Plan {
    let k = random.between(0, 16) as u8;
    let mut root = plan::root(random, k);
    let mut maker = Maker::default();
    let reached = match random.below(3) {
        0 => cubed(random, &mut maker, &mut root),
        1 => by_constants(random, &mut maker),
        _ => stretched(random, &mut maker, &mut root),
    };
    let beside = random.pick(&[0, 0, 1, -1, 2, i64::from(i32::MAX), i64::from(i32::MIN)]);
    let c = maker.constant(beside);
    let last = match random.below(3) {
        0 => maker.add(Sum(reached, c)),
        1 => maker.add(Difference(reached, c)),
        _ => maker.add(Difference(c, reached)),
    };
    let face = maker.add(Face(if random.once_in(3) { reached } else { last }));
    let solid = other_faces(random, &mut maker, &root, face);
    Plan {
        label: "values at 2^60 and beside",
        version: plan::version(random),
        records: maker.with_solid(solid),
        root,
    }
}

/// The cube of a coordinate that reaches 2^20 or -2^20.
fn cubed(random: &mut Random, maker: &mut Maker, root: &mut Root) -> usize {
    let axis = random.below(3);
    at_the_end(random, root, axis);
    let x = maker.axis(axis);
    let square = maker.add(if random.once_in(2) {
        Square(x)
    } else {
        Product(x, x)
    });
    maker.add(Product(square, x))
}

/// Moves the root to an end of an axis.
fn at_the_end(random: &mut Random, root: &mut Root, axis: usize) {
    let low = if random.once_in(2) {
        -FURTHEST
    } else {
        FURTHEST - (1 << root.k)
    };
    root.low[axis] = low as i32;
}

/// 2^60 or -2^60 as a product or a square of constants, or a number far beyond.
fn by_constants(random: &mut Random, maker: &mut Maker) -> usize {
    match random.below(5) {
        0 => {
            let a = maker.constant(i64::from(i32::MIN));
            let b = maker.constant(random.pick(&[1 << 29, -(1 << 29), (1 << 29) + 1]));
            maker.add(Product(a, b))
        }
        1 => {
            let a = maker.constant(random.pick(&[1 << 30, -(1 << 30), (1 << 30) + 1]));
            maker.add(Square(a))
        }
        2 => {
            let a = maker.constant(random.pick(&[1 << 15, -(1 << 15)]));
            let square = maker.add(Square(a));
            maker.add(Square(square))
        }
        3 => {
            let a = maker.constant(1 << 30);
            let b = maker.constant(random.pick(&[1 << 29, -(1 << 29)]));
            let half = maker.add(Product(a, b));
            maker.add(Sum(half, half))
        }
        _ => {
            let a = maker.constant(random.pick(&[i64::from(i32::MIN), i64::from(i32::MAX)]));
            maker.add(Square(a))
        }
    }
}

/// A coordinate at its limit times 2^40: wide bounds, with 2^60 at one end or both.
fn stretched(random: &mut Random, maker: &mut Maker, root: &mut Root) -> usize {
    let axis = random.below(3);
    at_the_end(random, root, axis);
    let x = maker.axis(axis);
    let large = maker.constant(1 << 20);
    let factor = maker.add(Product(large, large));
    let scaled = maker.add(Product(x, factor));
    if random.once_in(2) {
        return scaled;
    }
    let half = maker.constant(1 << 10);
    let square = maker.add(Square(x));
    let by = maker.add(Product(large, half));
    let left = maker.add(Product(square, by));
    let shift = maker.add(Product(by, large));
    maker.add(Difference(left, shift))
}

/// The solid: the face alone, or joined with planes through the root so that cubes are split, or not used at all.
fn other_faces(random: &mut Random, maker: &mut Maker, root: &Root, face: usize) -> usize {
    let mut plane = |maker: &mut Maker| {
        let axis = random.below(3);
        let c = i64::from(root.low[axis]) + random.between(0, 1 << root.k);
        let (along, limit) = (maker.axis(axis), maker.constant(c));
        maker.at_most(along, limit)
    };
    let (p, q) = (plane(maker), plane(maker));
    match random.below(4) {
        0 => face,
        1 => maker.add(Both(p, q)),
        2 => {
            let joined = maker.add(Either(p, q));
            maker.add(Both(joined, face))
        }
        _ => {
            let turned = maker.add(Complement(face));
            maker.add(Either(turned, p))
        }
    }
}

/// A root at or next to its limits, or far outside, or with k or d out of limits.
pub fn root_edges(random: &mut Random) -> Plan {
    let plan = graphs::tame(random);
    let k = match random.below(8) {
        0 => random.between(17, 255),
        1 => random.pick(&[15, 16, 17, 31, 32, 63, 64, 255]),
        _ => random.between(0, 16),
    } as u8;
    let side = 1i64 << k.min(16);
    let mut coordinate = || match random.below(9) {
        0 => -FURTHEST - 1,
        1 | 2 => -FURTHEST,
        3 | 4 => FURTHEST - side,
        5 => FURTHEST - side + 1,
        6 => random.pick(&[i32::MIN, i32::MAX, i32::MAX - 65535]).into(),
        _ => random.between(-FURTHEST, FURTHEST - side),
    } as i32;
    let low = [coordinate(), coordinate(), coordinate()];
    let d = match random.below(8) {
        0 => k.saturating_add(1),
        1 => 11,
        2 => random.byte(),
        _ => 0,
    };
    Plan {
        label: "roots at and near their limits",
        root: Root { low, k, d },
        ..plan
    }
}
