//! Wrong rules of refining: which leaves are replaced, and by what. Those of what is written and returned are in `wrong_rewrites`, and those
//! of its refusals in `wrong_refusals`.

use crate::case::{Case, Outcome};
use crate::expect::{by_paper, of_refined};
use crate::slips::Wrong;
use crate::wrong_builds::corners;
use paper::before_03;
use paper::bounds;
use paper::build::{add_leaves, Colouring};
use paper::colour::{self, BLACK, GRAY, TERMINAL, TERMINAL_COMPLEMENT, WHITE};
use paper::map::{self, Leaf, Map};
use paper::refine::deepened;
use paper::root::{Cube, Root};
use paper::sheet::{self, Sheet};
use paper::Refusal;

pub const ALL: [(&str, Wrong); 20] = [
    ("a gray leaf split without being coloured", split_unseen),
    ("gray leaves copied at an equal depth", copied_at_equal),
    ("only the first gray leaf replaced", first_alone),
    ("all but the last gray leaf replaced", last_copied),
    ("a gray leaf split by one level alone", one_level),
    ("a level less", level_less),
    ("a level more", level_more),
    ("a gray leaf's cube is its parent's", parents_cube),
    ("a gray leaf's cube is the next one's", next_cube),
    ("a gray leaf's cube read z first", z_first),
    ("places counted by the new depth", places_by_new),
    ("gray leaves by corners", |c| recoloured(c, &corners)),
    ("gray leaves by the rule before 2026-03", |c| {
        recoloured(c, &before_03::colour)
    }),
    ("levels of leaves that stand shifted", levels_shifted),
    ("white leaves coloured again", |c| again(c, &[WHITE])),
    ("black leaves coloured again", |c| again(c, &[BLACK])),
    ("terminal leaves coloured again", |c| {
        again(c, &[TERMINAL, TERMINAL_COMPLEMENT])
    }),
    ("built afresh", built_afresh),
    ("a leaf of class 3 stands as class 2", not_turned),
    ("a terminal leaf stands without its face", face_lost),
];

/// A refine that no test before 7 refuses.
struct Asked<'a> {
    sheet: &'a Sheet,
    map: &'a Map,
    root: Root,
}

/// The leaves that one leaf of the old map is replaced by are added.
type Replace<'a> = dyn Fn(&Asked, &Cube, Leaf, &mut Vec<Leaf>) + 'a;

/// What a map becomes, by a wrong rule, is not worked out if it is refined by more levels: it may have millions of leaves.
const MOST_LEVELS: u8 = 3;

/// The paper's outcome, but with another new map where it is not refused before 8.
fn refined(case: &Case, other: &dyn Fn(&Asked) -> Vec<u8>) -> Outcome {
    let Case::Refine(asked) = case else {
        return by_paper(case);
    };
    let is_deep = |map: &Map| asked.d > map.root.d + MOST_LEVELS;
    let new = || -> Result<Option<Vec<u8>>, Refusal> {
        let sheet = sheet::read(&asked.sheet)?;
        let map = map::read_for(&asked.map, &sheet)?;
        let root = deepened(&map.root, asked.d)?;
        bounds::within_limit(&sheet, &root)?;
        if is_deep(&map) {
            return Ok(None);
        }
        let (sheet, map) = (&sheet, &map);
        Ok(Some(other(&Asked { sheet, map, root })))
    };
    match new() {
        Ok(None) => by_paper(case),
        Ok(Some(map)) => of_refined(asked, Ok(map)),
        Err(refusal) => of_refined(asked, Err(refusal)),
    }
}

/// The same, with each leaf replaced by others.
fn by_leaves(case: &Case, replace: &Replace) -> Outcome {
    refined(case, &|asked| {
        let mut leaves = Vec::new();
        for (cube, leaf) in asked.map.cubes() {
            replace(asked, &cube, leaf, &mut leaves);
        }
        map::write(&asked.root, &leaves)
    })
}

/// The same, with gray leaves replaced by others; all others stand.
fn by_gray(case: &Case, replace: &Replace) -> Outcome {
    by_leaves(case, &|asked, cube, leaf, leaves| {
        if leaf.colour.class == GRAY {
            replace(asked, cube, leaf, leaves);
        } else {
            leaves.push(leaf);
        }
    })
}

/// The same, with leaves that stand changed; gray ones are replaced by the rules.
fn by_standing(case: &Case, change: fn(&Asked, &mut Leaf)) -> Outcome {
    by_leaves(case, &|asked, cube, mut leaf, leaves| {
        if leaf.colour.class == GRAY {
            return by_rules(asked, cube, leaves);
        }
        change(asked, &mut leaf);
        leaves.push(leaf);
    })
}

/// What the building rules give for a cube.
fn by_rules(asked: &Asked, cube: &Cube, leaves: &mut Vec<Leaf>) {
    add_leaves(&colour::colour, asked.sheet, asked.root.d, cube, leaves);
}

fn split_unseen(case: &Case) -> Outcome {
    by_gray(case, &|asked, cube, leaf, leaves| {
        if leaf.level == asked.root.d {
            return leaves.push(leaf);
        }
        for child in cube.children() {
            by_rules(asked, &child, leaves);
        }
    })
}

fn copied_at_equal(case: &Case) -> Outcome {
    by_gray(case, &|asked, cube, leaf, leaves| {
        if leaf.level == asked.root.d {
            leaves.push(leaf);
        } else {
            by_rules(asked, cube, leaves);
        }
    })
}

/// Gray leaves at some places among all gray ones are copied.
fn some_copied(case: &Case, is_copied: fn(usize, usize) -> bool) -> Outcome {
    refined(case, &|asked| {
        let is_gray = |leaf: &Leaf| leaf.colour.class == GRAY;
        let all = asked.map.leaves.iter().filter(|leaf| is_gray(leaf)).count();
        let (mut leaves, mut before) = (Vec::new(), 0);
        for (cube, leaf) in asked.map.cubes() {
            let is_gray = is_gray(&leaf);
            if is_gray && !is_copied(before, all) {
                by_rules(asked, &cube, &mut leaves);
            } else {
                leaves.push(leaf);
            }
            before += usize::from(is_gray);
        }
        map::write(&asked.root, &leaves)
    })
}

fn first_alone(case: &Case) -> Outcome {
    some_copied(case, |before, _| before > 0)
}

fn last_copied(case: &Case) -> Outcome {
    some_copied(case, |before, all| before + 1 == all)
}

/// The rules, to another depth.
fn to_depth(case: &Case, depth: fn(&Asked) -> u8) -> Outcome {
    by_gray(case, &|asked, cube, _, leaves| {
        add_leaves(&colour::colour, asked.sheet, depth(asked), cube, leaves);
    })
}

fn one_level(case: &Case) -> Outcome {
    to_depth(case, |asked| asked.root.d.min(asked.map.root.d + 1))
}

/// The levels left are counted from the old depth and one.
fn level_less(case: &Case) -> Outcome {
    to_depth(case, |asked| {
        asked.root.d.saturating_sub(1).max(asked.map.root.d)
    })
}

fn level_more(case: &Case) -> Outcome {
    to_depth(case, |asked| (asked.root.d + 1).min(10).min(asked.root.k))
}

/// The rules, over another cube of the root, with the leaf's own level.
fn over_cube(case: &Case, other: &dyn Fn(&Asked, &Cube) -> Cube) -> Outcome {
    by_gray(case, &|asked, cube, leaf, leaves| {
        let level = leaf.level;
        let cube = Cube {
            level,
            ..other(asked, cube)
        };
        by_rules(asked, &cube, leaves);
    })
}

/// The cube of another side, on the grid of such cubes, that holds the low corner of one.
fn holding(asked: &Asked, cube: &Cube, side: i64) -> Cube {
    let root = asked.root.cube();
    let low = [0, 1, 2].map(|axis| {
        let along = cube.low[axis] - root.low[axis];
        root.low[axis] + along / side * side
    });
    Cube { low, side, ..*cube }
}

fn parents_cube(case: &Case) -> Outcome {
    over_cube(case, &|asked, cube| {
        let side = asked.root.cube().side.min(2 * cube.side);
        holding(asked, cube, side)
    })
}

/// The next one along x, or the first of the row.
fn next_cube(case: &Case) -> Outcome {
    over_cube(case, &|asked, cube| {
        let root = asked.root.cube();
        let along = (cube.low[0] - root.low[0] + cube.side) % root.side;
        let [_, y, z] = cube.low;
        let low = [root.low[0] + along, y, z];
        Cube { low, ..*cube }
    })
}

fn z_first(case: &Case) -> Outcome {
    over_cube(case, &|asked, cube| {
        let root = asked.root.cube();
        let along = [0, 1, 2].map(|axis| cube.low[axis] - root.low[axis]);
        let low = [0, 1, 2].map(|axis| root.low[axis] + along[2 - axis]);
        Cube { low, ..*cube }
    })
}

/// The place of a leaf is the sum of 8^(new d - level), and its digits are read as those of the old depth; so the root's last
/// cubes come again and again.
fn places_by_new(case: &Case) -> Outcome {
    by_gray(case, &|asked, cube, _, leaves| {
        let levels = u32::from(asked.root.d - asked.map.root.d);
        let (root, side) = (asked.root.cube(), cube.side);
        let low = [0, 1, 2].map(|axis| {
            let along = (cube.low[axis] - root.low[axis]) << levels;
            root.low[axis] + along % root.side
        });
        by_rules(asked, &Cube { low, side, ..*cube }, leaves);
    })
}

fn recoloured(case: &Case, colouring: &Colouring) -> Outcome {
    by_gray(case, &|asked, cube, _, leaves| {
        add_leaves(colouring, asked.sheet, asked.root.d, cube, leaves);
    })
}

/// Leaves of these classes are replaced too.
fn again(case: &Case, classes: &[u8]) -> Outcome {
    by_leaves(case, &|asked, cube, leaf, leaves| {
        let class = leaf.colour.class;
        if class == GRAY || classes.contains(&class) {
            by_rules(asked, cube, leaves);
        } else {
            leaves.push(leaf);
        }
    })
}

fn built_afresh(case: &Case) -> Outcome {
    refined(case, &|asked| {
        let mut leaves = Vec::new();
        by_rules(asked, &asked.root.cube(), &mut leaves);
        map::write(&asked.root, &leaves)
    })
}

fn levels_shifted(case: &Case) -> Outcome {
    by_standing(case, |asked, leaf| {
        leaf.level += asked.root.d - asked.map.root.d;
    })
}

fn not_turned(case: &Case) -> Outcome {
    by_standing(case, |_, leaf| {
        if leaf.colour.class == TERMINAL_COMPLEMENT {
            leaf.colour.class = TERMINAL;
        }
    })
}

fn face_lost(case: &Case) -> Outcome {
    by_standing(case, |_, leaf| leaf.colour.face = 0)
}
