//! Refines that deserve two refusals, each two of 1 to 5, 9, 6, 7 and 8: the one that is tested first is given.

use crate::builds::{length, Made};
use crate::damage_maps::tell_length;
use crate::plan::{self, Plan};
use crate::random::Random;
use crate::refines::{self, illegal};
use crate::settings::{self, Setting};
use paper::colour::{GRAY, TERMINAL};
use paper::map::{self, HEADER, LEAF};
use paper::sheet::{self, Record::*, MOST_RECORDS};
use std::sync::OnceLock;

/// The refusals of a refine, in order of test: 9 comes before 6.
const ORDER: [u32; 9] = [1, 2, 3, 4, 5, 9, 6, 7, 8];

/// Two of them, in order of test, and their name.
struct Pair {
    codes: [u32; 2],
    name: String,
}

fn pairs() -> &'static [Pair] {
    static PAIRS: OnceLock<Vec<Pair>> = OnceLock::new();
    PAIRS.get_or_init(|| {
        let after = |at: usize| ORDER[at + 1..].iter().map(move |&later| [ORDER[at], later]);
        let all = (0..ORDER.len()).flat_map(after);
        let named = |codes: [u32; 2]| {
            let name = format!("two faults: {} before {}", codes[0], codes[1]);
            Pair { codes, name }
        };
        all.map(named).collect()
    })
}

/// The names of all pairs.
pub fn names() -> impl Iterator<Item = &'static str> {
    pairs().iter().map(|pair| pair.name.as_str())
}

/// A refine with the two faults of a given number, and no other.
pub fn any(number: u64, random: &mut Random) -> Made {
    let Pair { codes, name } = &pairs()[number as usize % pairs().len()];
    let has = |code| codes.contains(&code);
    let (plan, good) = planned(random);
    let opened = map::read_for(&good, &plan.sheet()).expect("the map is good");
    let most = opened.leaves.len() + 100;
    let deepest = plan.root.k.min(10);
    let (d, leaves) = plan::deepest_refined(&plan.sheet(), &opened, deepest, most);
    let (d, needed) = match has(6) {
        true => (illegal(&plan.root, random), length(1)),
        false => (d, length(leaves)),
    };
    let buffer = match has(8) {
        true => ("buffer: short", random.below(needed)),
        false => ("buffer: longer", length(leaves) + random.below(9)),
    };
    let setting = Setting {
        label: name,
        sheet: sheet_with(&plan, &has),
        map: match has(9) {
            true => bad_map(good, random),
            false => good,
        },
    };
    refines::lent(setting, d, buffer, random)
}

/// A sheet that has room for some records more, and a map of it.
fn planned(random: &mut Random) -> (Plan, Vec<u8>) {
    loop {
        let (plan, map) = settings::planned(random);
        if plan.records.len() + 6 < MOST_RECORDS {
            return (plan, map);
        }
    }
}

/// The bytes of a sheet with these faults. Its records are kept, so that the map's faces are still faces, and the solid is both
/// of the last with itself, which has the same state.
fn sheet_with(plan: &Plan, has: &dyn Fn(u32) -> bool) -> Vec<u8> {
    let mut records = plan.records.clone();
    let last = records.len() - 1;
    if has(7) {
        records.extend([Constant(i32::MIN), Square(last + 1)]);
    }
    let own = records.len();
    records.push(match has(4) {
        true => Both(last, own),
        false => Both(last, last),
    });
    if has(5) {
        records.push(X);
    }
    let mut bytes = sheet::write(plan.version, &records);
    if has(3) {
        bytes.extend([1, 99]);
    }
    if has(2) {
        bytes[2] = 3;
    }
    let length = bytes.len() as u16 - if has(1) { 1 } else { 2 };
    bytes[..2].copy_from_slice(&length.to_be_bytes());
    bytes
}

/// The map with one fault of reply 9.
fn bad_map(mut map: Vec<u8>, random: &mut Random) -> Vec<u8> {
    let leaves = (map.len() - HEADER) / LEAF;
    let leaf = HEADER + LEAF * random.below(leaves);
    match random.below(7) {
        0 => map[3] ^= 1,
        1 => map[4] = 2,
        2 => map[17] = 17,
        3 => map[leaf] = 200,
        4 => map[leaf + 1] = GRAY + 1,
        // No record has this number.
        5 => map[leaf + 1..leaf + LEAF].copy_from_slice(&[TERMINAL, 255]),
        _ => {
            map.truncate(map.len() - LEAF);
            tell_length(&mut map);
        }
    }
    map
}

#[cfg(test)]
mod tests {
    use super::*;
    use crate::expect::by_paper;

    #[test]
    fn the_first_in_order_is_given() {
        assert_eq!(names().count(), 36);
        for number in 0..36 * 20 {
            let made = any(number, &mut Random::of_case(1, "two faults", number));
            let reply = by_paper(&made.case).replies[0];
            let pair = &pairs()[number as usize % 36];
            assert_eq!(reply.code, pair.codes[0], "{}", pair.name);
        }
    }

    /// With one fault alone, each is given, and with none the map is refined.
    #[test]
    fn each_fault_is_a_fault() {
        let mut random = Random::of_case(1, "one fault", 0);
        for _ in 0..50 {
            let (plan, good) = planned(&mut random);
            let given = |sheet: &[u8], map: &[u8], d, out: &mut [u8]| {
                paper::refine::refine(sheet, map, d, out).code
            };
            let d = plan.root.d;
            for code in [0, 1, 2, 3, 4, 5, 7] {
                let sheet = sheet_with(&plan, &|fault| fault == code);
                assert_eq!(given(&sheet, &good, d, &mut vec![0; good.len()]), code);
            }
            let sheet = sheet_with(&plan, &|_| false);
            let bad = bad_map(good.clone(), &mut random);
            assert_eq!(given(&sheet, &bad, d, &mut []), 9);
            let wrong = illegal(&plan.root, &mut random);
            assert_eq!(given(&sheet, &good, wrong, &mut []), 6);
            assert_eq!(given(&sheet, &good, d, &mut []), 8);
        }
    }
}
