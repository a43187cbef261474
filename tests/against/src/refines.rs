//! Refines of every sort (request 2026-01).

use crate::builds::{self, buffer, length, Made};
use crate::case::{Case, Refine, PLACINGS_OF_THREE};
use crate::plan;
use crate::random::Random;
use crate::settings::{self, Setting};
use crate::{rooms, two_faults};
use paper::build::map_of;
use paper::map;
use paper::refine::deepened;
use paper::root::Root;
use paper::sheet;

/// One map in this many is one of the largest.
const LARGEST_ONCE_IN: u64 = 20_000;
const LARGEST_LEAVES: usize = 300_000;

/// The refine with a given case number.
pub fn any(number: u64, random: &mut Random) -> Made {
    if number % LARGEST_ONCE_IN == LARGEST_ONCE_IN / 2 {
        return largest(number / LARGEST_ONCE_IN, random);
    }
    usual(number, random)
}

/// The same, but none of the largest.
pub fn usual(number: u64, random: &mut Random) -> Made {
    if random.once_in(10) {
        return two_faults::any(number, random);
    }
    let setting = settings::any(random);
    of(setting, random)
}

/// Refines over which carrying down along the tree of a map can go wrong.
pub fn carrying(number: u64, random: &mut Random) -> Made {
    let setting = settings::carrying(number, random);
    of(setting, random)
}

/// The refine of a setting, to a depth that is mostly legal, into any buffer.
fn of(setting: Setting, random: &mut Random) -> Made {
    let (d, leaves) = depth(&setting, random);
    let buffer = buffer(length(leaves), random);
    lent(setting, d, buffer, random)
}

pub fn lent(
    Setting { label, sheet, map }: Setting,
    d: u8,
    (buffer, out_len): (&'static str, usize),
    random: &mut Random,
) -> Made {
    let refine = Refine {
        placing: random.below(PLACINGS_OF_THREE) as u8,
        sheet,
        map,
        d,
        out_len,
        out_seed: random.word() | 1,
    };
    Made {
        labels: vec![label, buffer],
        case: Case::Refine(refine),
    }
}

/// A depth to refine to, and the number of leaves of the new map; any numbers if sheet or map are refused.
fn depth(Setting { sheet, map, .. }: &Setting, random: &mut Random) -> (u8, usize) {
    let sheet = sheet::read(sheet);
    let both = sheet.and_then(|sheet| Ok((map::read_for(map, &sheet)?, sheet)));
    let Ok((map, sheet)) = both else {
        return (random.below(11) as u8, random.below(200));
    };
    if random.once_in(14) {
        return (illegal(&map.root, random), map.leaves.len());
    }
    let Root { k, d, .. } = map.root;
    let deepest = k.min(10);
    let some = random.between(d.into(), deepest.into()) as u8;
    let wanted = random.pick(&[d, some, deepest, deepest]);
    let most = map.leaves.len() + builds::most_leaves(random);
    plan::deepest_refined(&sheet, &map, wanted, most)
}

/// A depth that a map of this root cannot be refined to.
pub fn illegal(root: &Root, random: &mut Random) -> u8 {
    let Root { k, d, .. } = *root;
    loop {
        let smaller = random.below(usize::from(d) + 1) as u8;
        let any = random.byte();
        let wrong = random.pick(&[smaller, d.saturating_sub(1), k + 1, 11, 12, 255, any]);
        if deepened(root, wrong).is_err() {
            return wrong;
        }
    }
}

/// One of the largest maps, refined by a level.
fn largest(turn: u64, random: &mut Random) -> Made {
    let mut plan = rooms::largest(turn, random);
    let (d, leaves) = plan::deepest(&plan.sheet(), &plan.root, 10, LARGEST_LEAVES);
    plan.root.d = d - 1;
    let sheet = plan.bytes();
    let setting = Setting {
        label: "refine: one of the largest maps",
        map: map_of(&sheet, &plan.root).expect("it is built"),
        sheet,
    };
    let enough = ("buffer: just long enough", length(leaves));
    lent(setting, d, enough, random)
}
