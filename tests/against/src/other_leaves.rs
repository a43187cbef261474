//! Good maps that no build gives: a built map in which gray leaves are made to stand, others are made gray, or both; and
//! maps of gray leaves alone.

use crate::random::Random;
use paper::colour::{Colour, BLACK, GRAY, TERMINAL, TERMINAL_COMPLEMENT, WHITE};
use paper::map::{self, Leaf, Map};
use paper::root::Root;

const IS_GRAY: Colour = Colour {
    class: GRAY,
    face: 0,
};

/// The map with each leaf replaced by some.
fn with(map: &Map, mut others: impl FnMut(Leaf) -> Vec<Leaf>) -> Vec<u8> {
    let leaves: Vec<Leaf> = map.leaves.iter().flat_map(|&leaf| others(leaf)).collect();
    map::write(&map.root, &leaves)
}

/// Some leaves of level d are made gray, and some larger ones are split, down to level d, where some are gray.
pub fn grayed(map: &Map, random: &mut Random) -> Vec<u8> {
    let often = random.pick(&[1, 2, 8]);
    let mut left = 8;
    with(map, |leaf| {
        if leaf.level == map.root.d {
            return vec![gray_once_in(often, leaf, random)];
        }
        if left == 0 || !random.once_in(4) {
            return vec![leaf];
        }
        left -= 1;
        let mut leaves = Vec::new();
        add_split(&mut leaves, leaf, map.root.d, random);
        leaves
    })
}

fn gray_once_in(often: usize, leaf: Leaf, random: &mut Random) -> Leaf {
    let colour = if random.once_in(often) {
        IS_GRAY
    } else {
        leaf.colour
    };
    Leaf { colour, ..leaf }
}

/// Adds the eight children of a leaf above level d, one of which is split in its turn. Those of level d may be gray.
fn add_split(leaves: &mut Vec<Leaf>, leaf: Leaf, d: u8, random: &mut Random) {
    let further = random.below(8);
    for child in 0..8 {
        let level = leaf.level + 1;
        let inner = Leaf { level, ..leaf };
        if level == d {
            leaves.push(gray_once_in(2, inner, random));
        } else if child == further {
            add_split(leaves, inner, d, random);
        } else {
            leaves.push(inner);
        }
    }
}

/// Some gray leaves become white, black, or terminal by one of these faces.
pub fn decided(map: &Map, faces: &[u8], random: &mut Random) -> Vec<u8> {
    let mut any = || {
        let mut class = random.pick(&[WHITE, BLACK, TERMINAL, TERMINAL_COMPLEMENT, GRAY, GRAY]);
        let is_terminal = matches!(class, TERMINAL | TERMINAL_COMPLEMENT);
        if is_terminal && faces.is_empty() {
            class = WHITE;
        }
        let face = match class {
            TERMINAL | TERMINAL_COMPLEMENT => random.pick(faces),
            _ => 0,
        };
        Colour { class, face }
    };
    with(map, |leaf| match leaf.colour.class {
        GRAY => vec![Leaf {
            colour: any(),
            ..leaf
        }],
        _ => vec![leaf],
    })
}

/// The map of a root of which all leaves are gray, and so of level d.
pub fn all_gray(root: &Root) -> Vec<u8> {
    let leaf = Leaf {
        level: root.d,
        colour: IS_GRAY,
    };
    map::write(root, &vec![leaf; 1 << (3 * root.d)])
}

#[cfg(test)]
mod tests {
    use super::*;
    use crate::lookups;
    use crate::maps::faces;

    /// They open for the sheet of the map.
    #[test]
    fn they_are_good() {
        let (mut longer, mut fewer) = (0, 0);
        for number in 0..300 {
            let mut random = Random::of_case(1, "other leaves", number);
            let (plan, bytes) = lookups::planned(&mut random);
            let sheet = plan.sheet();
            let map = map::read_for(&bytes, &sheet).unwrap();
            let grayed = grayed(&map, &mut random);
            longer += u32::from(grayed.len() > bytes.len());
            let decided = decided(&map, &faces(&sheet), &mut random);
            fewer += u32::from(decided != bytes);
            let d = plan.root.d.min(2);
            let gray = all_gray(&Root { d, ..plan.root });
            for other in [grayed, decided, gray] {
                assert!(map::read_for(&other, &sheet).is_ok());
            }
        }
        assert!(longer > 0 && fewer > 0);
    }
}
