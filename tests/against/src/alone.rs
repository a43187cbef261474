//! Checks of a sheet alone and openings of a map alone, of every sort.

use crate::builds::{self, Made};
use crate::case::{Case, Lent, PLACINGS};
use crate::plan;
use crate::random::Random;
use crate::{damage_maps, damage_sheets, limits, lookups, maps};
use paper::build::map_of;
use paper::map::{self, HEADER};

/// One map in this many is one of the largest.
const LARGEST_ONCE_IN: u64 = 20_000;

/// Bytes, and what they are an example of.
type Labelled = (&'static str, Vec<u8>);

fn lent(bytes: Vec<u8>, random: &mut Random) -> Lent {
    let placing = random.below(PLACINGS) as u8;
    Lent { placing, bytes }
}

/// The check of a sheet, with a random placing.
pub fn checked(sheet: Vec<u8>, random: &mut Random) -> Case {
    Case::Check(lent(sheet, random))
}

/// The opening of a map, with a random placing.
pub fn opened(map: Vec<u8>, random: &mut Random) -> Case {
    Case::Open(lent(map, random))
}

/// The check with a given case number.
pub fn check(_: u64, random: &mut Random) -> Made {
    let (label, sheet) = match random.below(8) {
        0..=2 => {
            let plan = builds::sound(random);
            (plan.label, plan.bytes())
        }
        3 => ("sheet: random bytes", random_sheet(random)),
        _ => damage_sheets::damaged(&builds::sound(random).sheet(), random),
    };
    Made {
        labels: vec![label],
        case: checked(sheet, random),
    }
}

/// Random bytes of small value, mostly with the right length and a version that is read.
fn random_sheet(random: &mut Random) -> Vec<u8> {
    let length = random.below(40);
    let mut sheet: Vec<u8> = (0..length).map(|_| random.below(20) as u8).collect();
    if length > 2 && !random.once_in(8) {
        let version = plan::version(random) as u8;
        sheet[..3].copy_from_slice(&[0, length as u8 - 2, version]);
    }
    sheet
}

/// The opening with a given case number.
pub fn open(number: u64, random: &mut Random) -> Made {
    let (label, map) = match random.below(16) {
        _ if number % LARGEST_ONCE_IN == LARGEST_ONCE_IN / 2 => largest(number, random),
        0..=2 => ("map: as it is built", lookups::planned(random).1),
        3..=5 => ("map: random leaves of any face", of_any_face(random)),
        6 => ("map: root at and near its limits", at_limits(random)),
        7 => ("map: random bytes for leaves", random_leaves(random)),
        8..=11 => damage_maps::damaged(&lookups::planned(random).1, random),
        _ => damage_maps::damaged(&of_any_face(random), random),
    };
    Made {
        labels: vec![label],
        case: opened(map, random),
    }
}

fn largest(number: u64, random: &mut Random) -> Labelled {
    let (plan, _) = builds::largest(number / LARGEST_ONCE_IN, random);
    let map = map_of(&plan.bytes(), &plan.root).expect("it is built");
    ("map: one of the largest", map)
}

fn of_any_face(random: &mut Random) -> Vec<u8> {
    let any: Vec<u8> = (0..=255).collect();
    maps::naming(&any, random)
}

/// Sometimes with another version, which is tested first.
fn at_limits(random: &mut Random) -> Vec<u8> {
    let mut bytes = of_any_face(random);
    bytes[4] = random.pick(&[1, 1, 1, 2]);
    let root = limits::root_edges(random).root;
    bytes[5..HEADER - 1].copy_from_slice(&map::write(&root, &[])[5..HEADER - 1]);
    bytes
}

/// Levels, classes and faces that may each be good or not, in a map of depth 0 or 1 with the right length.
fn random_leaves(random: &mut Random) -> Vec<u8> {
    let mut root = plan::root(random, 1);
    root.d = random.below(2) as u8;
    let mut bytes = map::write(&root, &[]);
    for _ in 0..random.below(10) {
        let level = random.pick(&[root.d, root.d, root.d, 0]);
        let any = random.byte();
        let face = random.pick(&[0, 0, 0, any]);
        bytes.extend([level, random.below(6) as u8, face]);
    }
    damage_maps::tell_length(&mut bytes);
    bytes
}
