//! A sheet and a root to build it over, what it is an example of, and how deep its map may be.

use crate::random::Random;
use paper::bounds;
use paper::build::Colouring;
use paper::colour::{self, GRAY};
use paper::map::{self, Map};
use paper::refine::deepened;
use paper::root::{Cube, Root, FURTHEST};
use paper::sheet::{Record, Sheet, Version, VERSIONS};
use std::ops::Range;

#[derive(Clone)]
pub struct Plan {
    pub label: &'static str,
    pub version: Version,
    pub records: Vec<Record>,
    pub root: Root,
}

impl Plan {
    pub fn sheet(&self) -> Sheet {
        Sheet {
            version: self.version,
            records: self.records.clone(),
        }
    }

    pub fn bytes(&self) -> Vec<u8> {
        paper::sheet::write(self.version, &self.records)
    }

    /// Chooses a depth whose map has at most `most_leaves` leaves. Returns the number of leaves: 0 if the build is refused.
    pub fn choose_depth(&mut self, random: &mut Random, most_leaves: usize) -> usize {
        let wanted = random.between(0, i64::from(self.root.k.min(10))) as u8;
        let wanted = wanted.max(random.between(0, i64::from(self.root.k.min(10))) as u8);
        let (d, leaves) = deepest(&self.sheet(), &self.root, wanted, most_leaves);
        self.root.d = d;
        leaves
    }
}

/// Either version of a sheet.
pub fn version(random: &mut Random) -> Version {
    random.pick(&VERSIONS)
}

/// A root of side 2^k in limits, of depth 0.
pub fn root(random: &mut Random, k: u8) -> Root {
    let side = 1 << k;
    let highest = FURTHEST - side;
    let mut low = || {
        let at = match random.below(6) {
            0 => -FURTHEST,
            1 => highest,
            2 | 3 => random.between(-side, 0),
            4 => random.between(-1000, 1000),
            _ => random.between(-FURTHEST, highest),
        };
        at.clamp(-FURTHEST, highest) as i32
    };
    Root {
        low: [low(), low(), low()],
        k,
        d: 0,
    }
}

/// The greatest depth up to the wanted one whose map has at most `most_leaves` leaves, and the number of its leaves.
pub fn deepest(sheet: &Sheet, root: &Root, wanted: u8, most_leaves: usize) -> (u8, usize) {
    deepest_by(&colour::colour, sheet, root, wanted, most_leaves)
}

/// The same of the map by a given colouring.
pub fn deepest_by(
    colouring: &Colouring,
    sheet: &Sheet,
    root: &Root,
    wanted: u8,
    most_leaves: usize,
) -> (u8, usize) {
    if bounds::within_limit(sheet, root).is_err() {
        return (wanted, 0);
    }
    let is_gray = |cube: &Cube| colouring(sheet, cube).class == GRAY;
    split(is_gray, vec![root.cube()], 1, 0..wanted, most_leaves)
}

/// The same of the map that a good map is refined to; its own depth and number of leaves, if that is the greatest.
pub fn deepest_refined(sheet: &Sheet, map: &Map, wanted: u8, most_leaves: usize) -> (u8, usize) {
    if bounds::within_limit(sheet, &map.root).is_err() {
        return (wanted, 0);
    }
    let is_gray = |cube: &Cube| colour::colour(sheet, cube).class == GRAY;
    let leaves = map.cubes().filter(|(_, leaf)| leaf.colour.class == GRAY);
    let grays = leaves.map(|(cube, _)| cube).collect();
    let depths = map.root.d..wanted;
    split(is_gray, grays, map.leaves.len(), depths, most_leaves)
}

/// Splits those of some leaves that are gray, level by level from one depth up to another, while there are at most `most_leaves` leaves in all.
fn split(
    is_gray: impl Fn(&Cube) -> bool,
    mut grays: Vec<Cube>,
    mut leaves: usize,
    depths: Range<u8>,
    most_leaves: usize,
) -> (u8, usize) {
    grays.retain(&is_gray);
    for depth in depths.clone() {
        let split = leaves + 7 * grays.len();
        if split > most_leaves {
            return (depth, leaves);
        }
        leaves = split;
        grays = grays
            .iter()
            .flat_map(Cube::children)
            .filter(&is_gray)
            .collect();
    }
    (depths.end, leaves)
}

/// The root with a depth at which a sheet, damaged or not, has a map of at most `most_leaves` leaves.
pub fn shallow(bytes: &[u8], root: &Root, most_leaves: usize) -> Root {
    match paper::sheet::read(bytes) {
        Ok(sheet) if root.in_limits() => {
            let d = deepest(&sheet, root, root.d, most_leaves).0;
            Root { d, ..*root }
        }
        _ => *root,
    }
}

/// A depth to which a sheet and a map, damaged or not, are refined with at most `most_leaves` leaves more than the map has.
pub fn shallow_refined(sheet: &[u8], map: &[u8], wanted: u8, most_leaves: usize) -> u8 {
    let sheet = paper::sheet::read(sheet);
    let both = sheet.and_then(|sheet| Ok((map::read_for(map, &sheet)?, sheet)));
    match both {
        Ok((map, sheet)) if deepened(&map.root, wanted).is_ok() => {
            let most_leaves = map.leaves.len() + most_leaves;
            deepest_refined(&sheet, &map, wanted, most_leaves).0
        }
        _ => wanted,
    }
}
