//! Builds of every sort.

use crate::case::{Build, Case, PLACINGS};
use crate::damage_sheets;
use crate::plan::{self, Plan};
use crate::random::Random;
use crate::{graphs, limits, rooms};
use paper::map::{HEADER, LEAF};
use paper::root::Root;

/// A case, and what it is an example of.
pub struct Made {
    pub labels: Vec<&'static str>,
    pub case: Case,
}

/// One map in this many is one of the largest, of several megabytes.
const LARGEST_ONCE_IN: u64 = 20_000;
const LARGEST_LEAVES: usize = 2_200_000;

/// The first builds, this many, have smaller maps than later ones, so that the gate is quick.
const QUICK: u64 = 20_000;

/// The build with a given case number.
pub fn any(number: u64, random: &mut Random) -> Made {
    if number.is_multiple_of(LARGEST_ONCE_IN) {
        let (plan, leaves) = largest(number / LARGEST_ONCE_IN, random);
        let enough = ("buffer: just long enough", length(leaves));
        return lent(plan.label, plan.bytes(), &plan.root, enough, random);
    }
    if random.once_in(8) {
        return damaged(random);
    }
    let mut plan = sound(random);
    let mut leaves = 0;
    if plan.root.in_limits() {
        let most = most_leaves(random) * if number < QUICK { 1 } else { 5 };
        leaves = plan.choose_depth(random, most);
    }
    of_plan(&plan, leaves, random)
}

/// The build of a plan whose map has so many leaves.
pub fn of_plan(plan: &Plan, leaves: usize, random: &mut Random) -> Made {
    let buffer = buffer(length(leaves), random);
    lent(plan.label, plan.bytes(), &plan.root, buffer, random)
}

/// One of the largest maps, of three sorts in turn, and the number of its leaves.
pub fn largest(turn: u64, random: &mut Random) -> (Plan, usize) {
    let mut plan = rooms::largest(turn, random);
    let (d, leaves) = plan::deepest(&plan.sheet(), &plan.root, 10, LARGEST_LEAVES);
    plan.root.d = d;
    (plan, leaves)
}

pub fn length(leaves: usize) -> usize {
    HEADER + LEAF * leaves
}

/// A sheet that replies 1 to 5 do not refuse.
pub fn sound(random: &mut Random) -> Plan {
    match random.below(20) {
        0..=7 => rooms::room(random),
        8..=12 => graphs::tame(random),
        13..=14 => graphs::wild(random),
        15..=17 => limits::value(random),
        _ => limits::root_edges(random),
    }
}

/// Mostly small maps, so that there can be many.
pub fn most_leaves(random: &mut Random) -> usize {
    match random.below(400) {
        0 => 8_000,
        1..=15 => 1_500,
        16..=100 => 300,
        _ => 120,
    }
}

fn damaged(random: &mut Random) -> Made {
    let mut plan = sound(random);
    let (label, sheet) = damage_sheets::damaged(&plan.sheet(), random);
    plan.root.d = plan.root.k.min(10);
    let root = plan::shallow(&sheet, &plan.root, 250);
    let some = length(random.below(250));
    let buffer = buffer(some, random);
    lent(label, sheet, &root, buffer, random)
}

/// The length of a buffer when `needed` bytes are needed, and a label that says how the two compare.
pub fn buffer(needed: usize, random: &mut Random) -> (&'static str, usize) {
    match random.below(8) {
        0..=2 => ("buffer: just long enough", needed),
        3 => ("buffer: a byte short", needed - 1),
        4 => ("buffer: empty", 0),
        5 => ("buffer: short", random.below(needed)),
        6 => ("buffer: a byte longer", needed + 1),
        _ => ("buffer: longer", needed + random.below(5000)),
    }
}

fn lent(
    label: &'static str,
    sheet: Vec<u8>,
    root: &Root,
    (buffer, out_len): (&'static str, usize),
    random: &mut Random,
) -> Made {
    let build = Build {
        placing: random.below(PLACINGS) as u8,
        sheet,
        root: *root,
        out_len,
        out_seed: random.word() | 1,
    };
    Made {
        labels: vec![label, buffer],
        case: Case::Build(build),
    }
}
