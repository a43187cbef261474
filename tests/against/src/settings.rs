//! Sheets with maps to refine, of every sort.

use crate::builds;
use crate::plan::{self, Plan};
use crate::random::Random;
use crate::{carried, damage_maps, damage_sheets, limits, maps, other_leaves, other_sheets};
use crate::{rooms, versions};
use paper::before_03;
use paper::build::map_of;
use paper::map::{self, Map};
use paper::root::Root;
use paper::sheet::Sheet;

/// A sheet and a map to refine, good or not, and what they are an example of.
pub struct Setting {
    pub label: &'static str,
    pub sheet: Vec<u8>,
    pub map: Vec<u8>,
}

type Settings = fn(&mut Random) -> Setting;

/// The settings, and how often each comes.
const SETTINGS: [(usize, Settings); 14] = [
    (5, own),
    (4, own_carried),
    (1, own_deep),
    (3, of_varied_sheet),
    (1, of_other_sheet),
    (1, of_other_version),
    (2, of_before),
    (2, of_random_leaves),
    (3, grayed),
    (1, decided),
    (1, all_gray),
    (2, beyond_limit),
    (1, damaged_map),
    (1, damaged_sheet),
];

/// Any of them.
pub fn any(random: &mut Random) -> Setting {
    let all = SETTINGS.iter();
    let many: Vec<Settings> = all
        .flat_map(|&(often, settings)| vec![settings; often])
        .collect();
    random.pick(&many)(random)
}

/// One over which carrying down along the tree of the map can go wrong, with the shape of a given number.
pub fn carrying(number: u64, random: &mut Random) -> Setting {
    let (plan, map) = built(&mut |random| carried::plan(number, random), random);
    let map = match random.below(3) {
        0 => other_leaves::grayed(&read(&plan.sheet(), &map), random),
        1 => other_leaves::decided(&read(&plan.sheet(), &map), &[], random),
        _ => map,
    };
    let (label, sheet) = (plan.label, plan.bytes());
    Setting { label, sheet, map }
}

/// A sheet and a map of it, at a depth below the greatest at which its map is not too long.
fn built(make: &mut dyn FnMut(&mut Random) -> Plan, random: &mut Random) -> (Plan, Vec<u8>) {
    loop {
        let mut plan = make(random);
        if !plan.root.in_limits() {
            continue;
        }
        let most = builds::most_leaves(random);
        plan.choose_depth(random, most);
        plan.root.d = below(plan.root.d, random);
        if let Ok(map) = map_of(&plan.bytes(), &plan.root) {
            return (plan, map);
        }
    }
}

/// A depth up to the greatest, often the one just below it.
fn below(deepest: u8, random: &mut Random) -> u8 {
    let some = random.between(0, deepest.into()) as u8;
    random.pick(&[some, some, deepest.saturating_sub(1), deepest])
}

fn any_carried(random: &mut Random) -> Plan {
    let number = random.word();
    carried::plan(number, random)
}

/// Any sheet with a map of its own.
pub fn planned(random: &mut Random) -> (Plan, Vec<u8>) {
    if random.once_in(3) {
        return built(&mut any_carried, random);
    }
    built(&mut builds::sound, random)
}

/// The map of these bytes, which open for the sheet.
fn read(sheet: &Sheet, map: &[u8]) -> Map {
    map::read_for(map, sheet).expect("the map is good")
}

fn own(random: &mut Random) -> Setting {
    let (plan, map) = built(&mut builds::sound, random);
    Setting {
        label: "refine: its own map",
        sheet: plan.bytes(),
        map,
    }
}

fn own_carried(random: &mut Random) -> Setting {
    let (plan, map) = built(&mut any_carried, random);
    Setting {
        label: "refine: its own map, of a sheet of carried",
        sheet: plan.bytes(),
        map,
    }
}

/// A map just below a great depth.
fn own_deep(random: &mut Random) -> Setting {
    let mut plan = carried::deep_plan(random);
    let wanted = plan.root.k.min(10);
    let (d, _) = plan::deepest(&plan.sheet(), &plan.root, wanted, 800);
    plan.root.d = d.saturating_sub(1);
    Setting {
        label: "refine: its own map, deep down",
        map: map_of(&plan.bytes(), &plan.root).expect("the drawings are within the limit"),
        sheet: plan.bytes(),
    }
}

/// The map of a sheet with the same faces, but other constants, and both, either and differences that are others.
fn of_varied_sheet(random: &mut Random) -> Setting {
    let (plan, map) = planned(random);
    Setting {
        label: "refine: the map of a sheet with the same faces",
        sheet: other_sheets::varied(&plan, random),
        map,
    }
}

fn of_other_sheet(random: &mut Random) -> Setting {
    Setting {
        label: "refine: the map of another sheet",
        sheet: builds::sound(random).bytes(),
        map: planned(random).1,
    }
}

fn of_other_version(random: &mut Random) -> Setting {
    let (plan, map) = planned(random);
    Setting {
        label: "refine: the map of the other version",
        sheet: versions::other(&plan.bytes()),
        map,
    }
}

/// The map of the rule before request 2026-03, of a sheet that mentions a face more than once.
fn of_before(random: &mut Random) -> Setting {
    let mut plan = rooms::mentioning(random);
    let wanted = plan.root.k.min(10);
    let most = builds::most_leaves(random);
    let (d, _) = plan::deepest_by(&before_03::colour, &plan.sheet(), &plan.root, wanted, most);
    plan.root.d = below(d, random);
    match before_03::map_of(&plan.bytes(), &plan.root) {
        Ok(map) => Setting {
            label: "refine: a map of before 2026-03",
            sheet: plan.bytes(),
            map,
        },
        Err(_) => of_before(random),
    }
}

/// Leaves of any good sort, over the sheet's own root.
fn of_random_leaves(random: &mut Random) -> Setting {
    let (plan, _) = planned(random);
    Setting {
        label: "refine: a map of random leaves",
        sheet: plan.bytes(),
        map: random_leaves(&plan, random),
    }
}

fn random_leaves(plan: &Plan, random: &mut Random) -> Vec<u8> {
    let most = plan.root.k.min(random.pick(&[1, 2, 3, 10]));
    let d = random.between(0, most.into()) as u8;
    let named = maps::named(&plan.sheet(), random);
    maps::over(&Root { d, ..plan.root }, &named, random)
}

fn grayed(random: &mut Random) -> Setting {
    let (plan, map) = planned(random);
    Setting {
        label: "refine: its own map, with leaves made gray",
        map: other_leaves::grayed(&read(&plan.sheet(), &map), random),
        sheet: plan.bytes(),
    }
}

fn decided(random: &mut Random) -> Setting {
    let (plan, map) = planned(random);
    let faces = maps::faces(&plan.sheet());
    Setting {
        label: "refine: its own map, with gray leaves made to stand",
        map: other_leaves::decided(&read(&plan.sheet(), &map), &faces, random),
        sheet: plan.bytes(),
    }
}

fn all_gray(random: &mut Random) -> Setting {
    let (plan, _) = planned(random);
    let d = random.below(3).min(plan.root.k.into()) as u8;
    Setting {
        label: "refine: a map of gray leaves",
        sheet: plan.bytes(),
        map: other_leaves::all_gray(&Root { d, ..plan.root }),
    }
}

/// Values at and next to 2^60, with a map of random leaves over their root.
fn beyond_limit(random: &mut Random) -> Setting {
    let plan = limits::value(random);
    Setting {
        label: "refine: values at 2^60 and beside",
        sheet: plan.bytes(),
        map: random_leaves(&plan, random),
    }
}

/// Also one of another sheet, so that a leaf that names no face comes before a bad one.
fn damaged_map(random: &mut Random) -> Setting {
    let setting = match random.below(3) {
        0 => of_other_sheet(random),
        1 => of_random_leaves(random),
        _ => own(random),
    };
    let (label, map) = damage_maps::damaged(&setting.map, random);
    Setting {
        label,
        map,
        ..setting
    }
}

fn damaged_sheet(random: &mut Random) -> Setting {
    let (plan, map) = planned(random);
    let (label, sheet) = damage_sheets::damaged(&plan.sheet(), random);
    Setting { label, sheet, map }
}
