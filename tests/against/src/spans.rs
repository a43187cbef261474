//! Records with given bounds, over a cube of side 1 at the origin, where each coordinate has the bounds [0, 1].

use crate::case::{Build, Case, PLACINGS};
use crate::maker::Maker;
use crate::random::Random;
use paper::bounds::{interval, Interval};
use paper::map::{HEADER, LEAF};
use paper::root::Root;
use paper::sheet::Record::*;

/// A low and a high end.
pub type Span = [i64; 2];

pub const ROOT: Root = Root {
    low: [0; 3],
    k: 0,
    d: 0,
};

pub fn exact([low, high]: Span) -> Interval {
    interval(low, high)
}

/// The build of a sheet over the cube, with a buffer that is just long enough.
pub fn built(sheet: Vec<u8>, random: &mut Random) -> Case {
    Case::Build(Build {
        placing: random.below(PLACINGS) as u8,
        sheet,
        root: ROOT,
        out_len: HEADER + LEAF,
        out_seed: random.word() | 1,
    })
}

/// A record with these bounds, which are within the limit.
pub fn operand(maker: &mut Maker, [low, high]: Span) -> usize {
    if low == high {
        return number(maker, low);
    }
    if low <= 0 && 0 <= high {
        let (below, above) = (scaled(maker, 0, low), scaled(maker, 1, high));
        return maker.add(Sum(below, above));
    }
    let (start, length) = (number(maker, low), scaled(maker, 2, high - low));
    maker.add(Sum(start, length))
}

/// A number of up to 2^60 either way, from constants.
pub fn number(maker: &mut Maker, value: i64) -> usize {
    if i32::try_from(value).is_ok() {
        return maker.constant(value);
    }
    let (high, unit) = (maker.constant(value >> 30), maker.constant(1 << 30));
    let (high, low) = (
        maker.add(Product(high, unit)),
        maker.constant(value & ((1 << 30) - 1)),
    );
    maker.add(Sum(high, low))
}

/// A coordinate times a number.
fn scaled(maker: &mut Maker, axis: usize, by: i64) -> usize {
    let (along, factor) = (maker.axis(axis), number(maker, by));
    maker.add(Product(along, factor))
}
