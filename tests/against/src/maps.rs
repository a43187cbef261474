//! Maps of random leaves, and points to look up.

use crate::plan;
use crate::random::Random;
use paper::colour::{Colour, BLACK, GRAY, TERMINAL, TERMINAL_COMPLEMENT, WHITE};
use paper::map::{self, Leaf};
use paper::root::{Cube, Root};
use paper::sheet::Sheet;

/// A map of random leaves. In seven maps of eight, terminal ones name faces of the sheet.
pub fn unbuilt(sheet: &Sheet, random: &mut Random) -> Vec<u8> {
    let faces = named(sheet, random);
    naming(&faces, random)
}

/// What terminal leaves may name: the faces of a sheet or, once in eight times, any record.
pub fn named(sheet: &Sheet, random: &mut Random) -> Vec<u8> {
    if random.once_in(8) {
        return (0..=255).collect();
    }
    faces(sheet)
}

/// A map of random leaves over a random root. The leaves are good, and terminal ones name these faces.
pub fn naming(faces: &[u8], random: &mut Random) -> Vec<u8> {
    let k = random.between(0, 16) as u8;
    let mut root = plan::root(random, k);
    root.d = random.between(0, i64::from(k.min(10))) as u8;
    over(&root, faces, random)
}

/// The same over a given root.
pub fn over(root: &Root, faces: &[u8], random: &mut Random) -> Vec<u8> {
    let mut leaves = Vec::new();
    add_random(&mut leaves, random, faces, root.d, 0);
    map::write(root, &leaves)
}

/// The faces of a sheet.
pub fn faces(sheet: &Sheet) -> Vec<u8> {
    let is_face = |&number: &u8| sheet.is_face(number.into());
    (0..=255).filter(is_face).collect()
}

/// Splits until there are a few hundred leaves.
fn add_random(leaves: &mut Vec<Leaf>, random: &mut Random, faces: &[u8], d: u8, level: u8) {
    let often = if leaves.len() < 200 { 2 } else { 50 };
    let splits = level < d && (level == 0 || random.once_in(often));
    if splits && leaves.len() < 600 {
        for _ in 0..8 {
            add_random(leaves, random, faces, d, level + 1);
        }
        return;
    }
    let mut classes = vec![WHITE, BLACK];
    if level == d {
        classes.push(GRAY);
    }
    if !faces.is_empty() {
        classes.extend([TERMINAL, TERMINAL_COMPLEMENT]);
    }
    let class = random.pick(&classes);
    let is_terminal = matches!(class, TERMINAL | TERMINAL_COMPLEMENT);
    let face = if is_terminal { random.pick(faces) } else { 0 };
    let colour = Colour { class, face };
    leaves.push(Leaf { level, colour });
}

/// A point in or around a root: on, next to or outside a plane of it or of a cube in it, anywhere in it, or at
/// the extremes of 32 bits.
pub fn point(root: &Root, random: &mut Random) -> [i32; 3] {
    let cube = cube_in(root, random);
    let far = random.once_in(12);
    let inside = !random.once_in(3);
    [0, 1, 2].map(|axis| {
        let at = match random.below(8) {
            0 if far => i64::from(i32::MIN),
            1 if far => i64::from(i32::MAX),
            2 => cube.low[axis] - 1,
            3 => cube.low[axis],
            4 => cube.high(axis) - 1,
            5 => cube.high(axis),
            _ => cube.low[axis] + random.between(0, cube.side),
        };
        let whole = root.cube();
        if inside && !far {
            return at.clamp(whole.low[axis], whole.high(axis) - 1) as i32;
        }
        at as i32
    })
}

/// The root or a cube in it, at a level where a leaf may be.
fn cube_in(root: &Root, random: &mut Random) -> Cube {
    let level = random.between(0, i64::from(root.d));
    (0..level).fold(root.cube(), |cube, _| cube.child(random.below(8)))
}
