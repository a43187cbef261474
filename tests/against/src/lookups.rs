//! Lookups of every sort.

use crate::builds::{self, Made};
use crate::case::{Case, Lookup, PLACINGS};
use crate::plan::Plan;
use crate::random::Random;
use crate::{damage_maps, damage_sheets, every_byte, limits, maps, versions};
use paper::build::map_of;
use paper::root::Root;

/// The number of points looked up in a map.
pub const POINTS: usize = 4;

/// One map in this many is one of the largest.
const LARGEST_ONCE_IN: u64 = 5_000;

/// A sheet, a map, and the root in and around which the points lie.
struct Setting {
    label: &'static str,
    sheet: Vec<u8>,
    map: Vec<u8>,
    root: Root,
}

/// The lookups with a given case number. The first ones take each point in and around some small maps.
pub fn any(number: u64, random: &mut Random) -> Made {
    if let Some(made) = every_byte::points(number, random) {
        return made;
    }
    let setting = match random.below(20) {
        _ if number % LARGEST_ONCE_IN == LARGEST_ONCE_IN / 2 => largest(number, random),
        0..=9 => own(random),
        10 | 11 => of_other_sheet(random),
        12 => of_other_version(random),
        13..=15 => unbuilt(random),
        16 => beyond_limit(random),
        17 | 18 => damaged_map(random),
        _ => damaged_sheet(random),
    };
    let points = (0..POINTS).map(|_| maps::point(&setting.root, random));
    let points = points.collect();
    Made {
        labels: vec![setting.label],
        case: Case::Lookup(Lookup {
            placing: random.below(PLACINGS) as u8,
            sheet: setting.sheet,
            map: setting.map,
            points,
        }),
    }
}

/// A sheet with the map built from it, in limits.
pub fn planned(random: &mut Random) -> (Plan, Vec<u8>) {
    loop {
        let mut plan = builds::sound(random);
        if plan.root.in_limits() {
            let most = builds::most_leaves(random);
            plan.choose_depth(random, most);
            if let Ok(map) = map_of(&plan.bytes(), &plan.root) {
                return (plan, map);
            }
        }
    }
}

fn own(random: &mut Random) -> Setting {
    let (plan, map) = planned(random);
    let label = match plan.label.split_once(':') {
        Some(("room", _)) => "its own map: rooms",
        Some(_) => "its own map: graphs",
        None => "its own map: at limits",
    };
    Setting {
        label,
        sheet: plan.bytes(),
        map,
        root: plan.root,
    }
}

fn largest(number: u64, random: &mut Random) -> Setting {
    let (plan, _) = builds::largest(number / LARGEST_ONCE_IN, random);
    let sheet = plan.bytes();
    Setting {
        label: "its own map: one of the largest",
        map: map_of(&sheet, &plan.root).expect("it is built"),
        sheet,
        root: plan.root,
    }
}

fn of_other_sheet(random: &mut Random) -> Setting {
    let setting = own(random);
    Setting {
        label: "the map of another sheet",
        sheet: builds::sound(random).bytes(),
        ..setting
    }
}

/// A map does not record its sheet's version.
fn of_other_version(random: &mut Random) -> Setting {
    let setting = own(random);
    Setting {
        label: "the map of the other version",
        sheet: versions::other(&setting.sheet),
        ..setting
    }
}

fn unbuilt(random: &mut Random) -> Setting {
    let plan = builds::sound(random);
    let map = maps::unbuilt(&plan.sheet(), random);
    let root = paper::map::root(&map);
    Setting {
        label: "a map of random leaves",
        sheet: plan.bytes(),
        map,
        root,
    }
}

/// Values at and next to 2^60, with a map of random leaves over their root.
fn beyond_limit(random: &mut Random) -> Setting {
    let plan = limits::value(random);
    let mut map = maps::unbuilt(&plan.sheet(), random);
    let own = paper::map::write(&plan.root, &[]);
    map[5..17].copy_from_slice(&own[5..17]);
    map[17] = plan.root.k.max(map[18]);
    let root = paper::map::root(&map);
    Setting {
        label: "values at 2^60 and beside",
        sheet: plan.bytes(),
        map,
        root,
    }
}

fn damaged_map(random: &mut Random) -> Setting {
    let setting = if random.once_in(3) {
        of_other_sheet(random)
    } else {
        own(random)
    };
    let (label, map) = damage_maps::damaged(&setting.map, random);
    Setting {
        label,
        map,
        ..setting
    }
}

fn damaged_sheet(random: &mut Random) -> Setting {
    let (plan, map) = planned(random);
    let (label, sheet) = damage_sheets::damaged(&plan.sheet(), random);
    Setting {
        label,
        sheet,
        map,
        root: plan.root,
    }
}
