//! What a refine has that is worth counting: its depths, what its gray leaves become, which leaves stand that the rules would
//! colour otherwise, why it is refused, and how long its buffer is.

use crate::case::Refine;
use crate::first_cubes::names;
use paper::colour::{self, Colour, BLACK, GRAY, TERMINAL, TERMINAL_COMPLEMENT, WHITE};
use paper::map::{self, Leaf, Map};
use paper::refine::deepened;
use paper::root::Cube;
use paper::sheet::{self, Sheet};
use paper::Reply;

/// All of these have to occur.
pub const WAYS: [&str; 34] = [
    "refine: to an equal depth",
    "refine: by one level",
    "refine: by several levels",
    "refine: from depth 0",
    "refine: to depth 10",
    "refine: to depth k",
    "refine: a map without gray leaves",
    "refine: a map of gray leaves alone",
    "refine: a gray leaf at level 7 or deeper is split",
    "refine: a gray leaf is white, at an equal depth",
    "refine: a gray leaf is black, at an equal depth",
    "refine: a gray leaf is terminal, at an equal depth",
    "refine: a gray leaf is terminal by a complement, at an equal depth",
    "refine: a gray leaf stays gray",
    "refine: a gray leaf is white, at a greater depth",
    "refine: a gray leaf is black, at a greater depth",
    "refine: a gray leaf is terminal, at a greater depth",
    "refine: a gray leaf is terminal by a complement, at a greater depth",
    "refine: a gray leaf is split",
    "refine: a gray leaf in a white cube",
    "refine: a gray leaf in a black cube",
    "refine: a gray leaf in a terminal cube",
    "refine: a leaf stands that is white by the rules",
    "refine: a leaf stands that is black by the rules",
    "refine: a leaf stands that is terminal by the rules, otherwise",
    "refine: a leaf stands that is gray by the rules",
    "refine: a leaf stands that is as the rules say",
    "refine: 6 for a smaller depth",
    "refine: 6 for a depth over k",
    "refine: 6 for a depth over 10",
    "refine: 9 for a leaf that names no face of the sheet",
    "refine: into a buffer that is a byte short",
    "refine: into a buffer that is just long enough",
    "refine: into a longer buffer",
];

// Where some of them stand.
const DEEP_DOWN: usize = 8;
const AT_EQUAL: usize = 9;
const AT_GREATER: usize = 14;
const IN_CUBE: usize = 19;
const STANDS: usize = 22;
const OF_6: usize = 27;
const OF_9: usize = 30;
const OF_BUFFER: usize = 31;

type Met = [bool; WAYS.len()];

/// Not more leaves of a map are looked at, to save time.
const MOST_LEAVES: usize = 40;

/// The ways in which a refine is one, by its reply. A wrong rule may accept what it must not; then there are none.
pub fn of_refine(asked: &Refine, reply: Reply) -> Vec<&'static str> {
    let mut met = [false; WAYS.len()];
    match reply.code {
        0 | 8 => {
            if let Some((sheet, map)) = read(asked) {
                add_depths(&mut met, &map, asked.d);
                add_leaves(&mut met, &sheet, &map, asked.d);
                met[DEEP_DOWN] = is_split_deep_down(&sheet, &map, asked.d);
            }
            let (lent, needed) = (asked.out_len as u64, reply.number);
            met[OF_BUFFER] = lent + 1 == needed;
            met[OF_BUFFER + 1] = lent == needed;
            met[OF_BUFFER + 2] = lent > needed;
        }
        6 => {
            let root = map::root(&asked.map);
            met[OF_6] = asked.d < root.d;
            met[OF_6 + 1] = asked.d > root.k;
            met[OF_6 + 2] = asked.d > 10;
        }
        9 => met[OF_9] = map::open(&asked.map).code == 0,
        _ => (),
    }
    names(WAYS, met)
}

fn read(asked: &Refine) -> Option<(Sheet, Map)> {
    let sheet = sheet::read(&asked.sheet).ok()?;
    let map = map::read_for(&asked.map, &sheet).ok()?;
    deepened(&map.root, asked.d).ok()?;
    Some((sheet, map))
}

fn add_depths(met: &mut Met, map: &Map, d: u8) {
    let levels = d - map.root.d;
    let is_gray = |leaf: &Leaf| leaf.colour.class == GRAY;
    let depths = [
        levels == 0,
        levels == 1,
        levels > 1,
        map.root.d == 0,
        d == 10,
        d == map.root.k,
        !map.leaves.iter().any(is_gray),
        map.leaves.iter().all(is_gray),
    ];
    met[..depths.len()].copy_from_slice(&depths);
}

fn add_leaves(met: &mut Met, sheet: &Sheet, map: &Map, d: u8) {
    let mut before: Option<Cube> = None;
    for (cube, leaf) in map.cubes().take(MOST_LEAVES) {
        let by_rules = colour::colour(sheet, &cube);
        if leaf.colour.class != GRAY {
            met[STANDS + standing(leaf.colour, by_rules)] = true;
            continue;
        }
        let first = if d == map.root.d {
            AT_EQUAL
        } else {
            AT_GREATER
        };
        met[first + usize::from(by_rules.class)] = true;
        let parent = parent(map, &cube).filter(|parent| before != Some(*parent));
        if let Some(parent) = parent {
            let class = colour::colour(sheet, &parent).class;
            let way = match class {
                WHITE => Some(0),
                BLACK => Some(1),
                TERMINAL | TERMINAL_COMPLEMENT => Some(2),
                _ => None,
            };
            way.into_iter().for_each(|way| met[IN_CUBE + way] = true);
            before = Some(parent);
        }
    }
}

/// Whether one of the first gray leaves at level 7 or deeper is split.
fn is_split_deep_down(sheet: &Sheet, map: &Map, d: u8) -> bool {
    let gray = map.cubes().filter(|(_, leaf)| leaf.colour.class == GRAY);
    let mut deep = gray.filter(|(_, leaf)| leaf.level >= 7).take(MOST_LEAVES);
    d > map.root.d && deep.any(|(cube, _)| colour::colour(sheet, &cube).class == GRAY)
}

/// Which way a leaf stands, by its colour and that by the rules.
fn standing(colour: Colour, by_rules: Colour) -> usize {
    match by_rules.class {
        _ if colour == by_rules => 4,
        WHITE => 0,
        BLACK => 1,
        GRAY => 3,
        _ => 2,
    }
}

/// The cube that one of a map lies in, one level above; None for the root.
fn parent(map: &Map, cube: &Cube) -> Option<Cube> {
    let level = cube.level.checked_sub(1)?;
    let (root, side) = (map.root.cube(), 2 * cube.side);
    let low = [0, 1, 2].map(|axis| {
        let along = cube.low[axis] - root.low[axis];
        root.low[axis] + along / side * side
    });
    Some(Cube { low, side, level })
}

#[cfg(test)]
mod tests {
    use super::*;
    use paper::root::Root;

    #[test]
    fn a_cube_has_its_parent() {
        let root = Root {
            low: [-3, 5, 100],
            k: 5,
            d: 5,
        };
        let map = Map {
            root,
            leaves: vec![],
        };
        assert_eq!(parent(&map, &root.cube()), None);
        let mut cube = root.cube();
        for child in [6, 1, 7, 0, 2] {
            let inner = cube.child(child);
            assert_eq!(parent(&map, &inner), Some(cube));
            cube = inner;
        }
    }
}
