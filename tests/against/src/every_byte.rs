//! Each byte of some sheets and maps, changed to other values, and each point in and around these maps.

use crate::alone;
use crate::builds::Made;
use crate::case::{Build, Case, Lookup, Refine, PLACINGS, PLACINGS_OF_THREE};
use crate::lookups;
use crate::maker::Maker;
use crate::maps;
use crate::plan;
use crate::random::Random;
use crate::{damage_maps, damage_sheets, versions};
use paper::build::map_of;
use paper::map::HEADER;
use paper::refine;
use paper::root::Root;
use paper::sheet::{self, Record::*, Version::*};

/// A small sheet and its root; each byte is changed to `values` other values.
struct Small {
    sheet: Vec<u8>,
    root: Root,
    values: u64,
}

fn small() -> [Small; 4] {
    let root = |low, k, d| Root { low, k, d };
    let step_room = [
        X,
        Y,
        Constant(2),
        Difference(0, 2),
        Difference(1, 2),
        Face(3),
        Face(4),
        Both(5, 6),
    ];
    let mut ring = Maker::default();
    let torus = ring.torus([1, -1, 0], 3, 1);
    let around = ring.add(Complement(torus));
    let slab = ring.between(2, -1, 1);
    let solid = ring.add(Either(around, slab));
    [
        Small {
            sheet: sheet::write(One, &step_room),
            root: root([0, 0, 0], 2, 1),
            values: 255,
        },
        Small {
            sheet: sheet::write(Two, &step_room),
            root: root([0, 0, 0], 2, 2),
            values: 16,
        },
        Small {
            sheet: sheet::write(One, &ring.with_solid(solid)),
            root: root([-4, -4, -4], 3, 2),
            values: 8,
        },
        Small {
            sheet: sheet::write(Two, &[Z, Square(0), Face(1), Complement(2), Complement(3)]),
            root: root([-8, 5, -3], 3, 3),
            values: 16,
        },
    ]
}

/// The number of calls that take a sheet, and that take a map: each changed one is given to all of them.
const OF_SHEETS: u64 = 4;
const OF_MAPS: u64 = 3;

/// The number of cases of `sheets` that change a single byte.
pub fn sheet_cases() -> u64 {
    small().iter().map(Small::sheet_cases).sum()
}

/// The number of cases of `maps` that change a single byte.
pub fn map_cases() -> u64 {
    small().iter().map(Small::map_cases).sum()
}

impl Small {
    fn sheet_cases(&self) -> u64 {
        OF_SHEETS * self.sheet.len() as u64 * self.values
    }

    fn map_cases(&self) -> u64 {
        OF_MAPS * self.map().len() as u64 * self.values
    }

    /// One of the calls that take a sheet, chosen by number.
    fn by_sheet(&self, call: u64, sheet: Vec<u8>, map: Vec<u8>, random: &mut Random) -> Case {
        match call % OF_SHEETS {
            0 => self.build(sheet, random),
            1 => self.lookup(sheet, map, random),
            2 => self.refine(sheet, map, random),
            _ => alone::checked(sheet, random),
        }
    }

    /// One of the calls that take a map, chosen by number.
    fn by_map(&self, call: u64, map: Vec<u8>, random: &mut Random) -> Case {
        match call % OF_MAPS {
            0 => self.lookup(self.sheet.clone(), map, random),
            1 => self.refine(self.sheet.clone(), map, random),
            _ => alone::opened(map, random),
        }
    }

    fn map(&self) -> Vec<u8> {
        map_of(&self.sheet, &self.root).expect("it is built")
    }

    fn lookup(&self, sheet: Vec<u8>, map: Vec<u8>, random: &mut Random) -> Case {
        let point = maps::point(&self.root, random);
        looked_up(sheet, map, vec![point], random)
    }

    /// By a level, if the root allows it and the new map does not become too long.
    fn refine(&self, sheet: Vec<u8>, map: Vec<u8>, random: &mut Random) -> Case {
        let wanted = self.root.k.min(10).min(self.root.d + 1);
        let d = plan::shallow_refined(&sheet, &map, wanted, 250);
        let new = refine::map_of(&sheet, &map, d);
        let needed = new.map_or(HEADER, |new| new.len());
        Case::Refine(Refine {
            placing: random.below(PLACINGS_OF_THREE) as u8,
            sheet,
            map,
            d,
            out_len: needed + random.below(20),
            out_seed: random.word() | 1,
        })
    }

    /// Each whole point of the root, of its high planes and of one more layer on every side, and the extremes
    /// of 32 bits.
    fn points(&self) -> Vec<[i32; 3]> {
        let along = |axis: usize| {
            let low = self.root.low[axis];
            let near = low - 1..=low + (1 << self.root.k) + 1;
            near.chain([i32::MIN, i32::MAX])
        };
        let columns = along(0).flat_map(|x| along(1).map(move |y| (x, y)));
        columns
            .flat_map(|(x, y)| along(2).map(move |z| [x, y, z]))
            .collect()
    }

    fn build(&self, sheet: Vec<u8>, random: &mut Random) -> Case {
        Case::Build(Build {
            placing: random.below(PLACINGS) as u8,
            sheet,
            root: self.root,
            out_len: self.map().len() + random.below(20),
            out_seed: random.word() | 1,
        })
    }
}

fn looked_up(sheet: Vec<u8>, map: Vec<u8>, points: Vec<[i32; 3]>, random: &mut Random) -> Case {
    Case::Lookup(Lookup {
        placing: random.below(PLACINGS) as u8,
        sheet,
        map,
        points,
    })
}

/// Each point in and around one small map, chosen by number, with its own sheet and then with that of the other version;
/// None past the last.
pub fn points(number: u64, random: &mut Random) -> Option<Made> {
    let small = small().into_iter().nth(number as usize / 2)?;
    let (label, sheet) = match number % 2 {
        0 => ("each point about a map", small.sheet.clone()),
        _ => {
            let other = versions::other(&small.sheet);
            ("each point about a map of the other version", other)
        }
    };
    let case = looked_up(sheet, small.map(), small.points(), random);
    let labels = vec![label];
    Some(Made { labels, case })
}

/// Changes one byte, chosen by number, always to another value.
fn changed(bytes: &[u8], number: u64, small: &Small, random: &mut Random) -> Vec<u8> {
    let mut bytes = bytes.to_vec();
    let byte = &mut bytes[(number / small.values) as usize];
    let step = match small.values {
        255 => 1 + number % 255,
        _ => 1 + random.below(255) as u64,
    };
    *byte = byte.wrapping_add(step as u8);
    bytes
}

/// Each byte of each small sheet in turn.
pub fn sheets(mut number: u64, random: &mut Random) -> Made {
    for small in small() {
        if number < small.sheet_cases() {
            let sheet = changed(&small.sheet, number / OF_SHEETS, &small, random);
            let labels = vec!["each byte of a sheet"];
            let case = small.by_sheet(number, sheet, small.map(), random);
            return Made { labels, case };
        }
        number -= small.sheet_cases();
    }
    damaged_sheet(number, random)
}

/// Each byte of each small map in turn.
pub fn maps(mut number: u64, random: &mut Random) -> Made {
    for small in small() {
        if number < small.map_cases() {
            let map = changed(&small.map(), number / OF_MAPS, &small, random);
            let labels = vec!["each byte of a map"];
            let case = small.by_map(number, map, random);
            return Made { labels, case };
        }
        number -= small.map_cases();
    }
    damaged_map(number, random)
}

/// A random sheet with a damaged field; these come after the single bytes.
pub fn damaged_sheet(number: u64, random: &mut Random) -> Made {
    let (plan, map) = lookups::planned(random);
    let (label, sheet) = damage_sheets::damaged(&plan.sheet(), random);
    let one = Small {
        sheet: plan.bytes(),
        root: plan::shallow(&sheet, &plan.root, 250),
        values: 1,
    };
    Made {
        labels: vec![label],
        case: one.by_sheet(number, sheet, map, random),
    }
}

/// A random map with a damaged field.
pub fn damaged_map(number: u64, random: &mut Random) -> Made {
    let (plan, map) = lookups::planned(random);
    let (label, map) = damage_maps::damaged(&map, random);
    let one = Small {
        sheet: plan.bytes(),
        root: plan.root,
        values: 1,
    };
    Made {
        labels: vec![label],
        case: one.by_map(number, map, random),
    }
}
