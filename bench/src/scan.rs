//! The baseline for looking up: a plain program that opens a map in one pass over its leaves, and answers by the leaf that holds the point.
use crate::baseline::{limited_over_root, satisfies, Root};
use crate::records::{parse, Record, Refusal};

const HEADER: usize = 19;

fn i32_at(map: &[u8], at: usize) -> i32 {
    i32::from_be_bytes([map[at], map[at + 1], map[at + 2], map[at + 3]])
}

/// The root of a map, or the offset of the first fault before its leaves.
fn header(map: &[u8]) -> Result<Root, usize> {
    if map.len() < HEADER {
        return Err(0);
    }
    let follow = i32_at(map, 0) as u32 as usize;
    if follow + 4 != map.len() || !follow.is_multiple_of(3) {
        return Err(0);
    }
    if map[4] != 1 {
        return Err(4);
    }
    let root = Root {
        corner: [5, 9, 13].map(|at| i32_at(map, at)),
        k: map[17],
        d: map[18],
    };
    root.is_within_limits().then_some(root).ok_or(5)
}

/// A leaf's level, class and face.
type Leaf = [u8; 3];

/// Whether level, class and face of a leaf are good.
fn is_good([level, class, face]: Leaf, faces: &[bool; 256], d: u8) -> bool {
    level <= d
        && match class {
            0 | 1 => face == 0,
            2 | 3 => faces[face as usize],
            4 => level == d && face == 0,
            _ => false,
        }
}

/// The leaf that holds a place, or the offset of the first fault in the leaves. The last leaf that begins at or before a place holds it.
fn open(leaves: &[u8], faces: &[bool; 256], d: u8, wanted: u32) -> Result<Leaf, usize> {
    let (leaves, _) = leaves.as_chunks::<3>();
    let end = 1u32 << (3 * d);
    let mut place = 0;
    let mut found = 0;
    for (i, &leaf) in leaves.iter().enumerate() {
        if !is_good(leaf, faces, d) {
            return Err(HEADER + 3 * i);
        }
        let size = 1u32 << (3 * (d - leaf[0]));
        if place & (size - 1) != 0 || place + size > end {
            return Err(HEADER + 3 * i);
        }
        if place <= wanted {
            found = i;
        }
        place += size;
    }
    if place == end {
        Ok(leaves[found])
    } else {
        Err(HEADER + 3 * leaves.len())
    }
}

/// The place of a point among the cubes of the last level, if the root holds it.
fn place(root: &Root, point: [i32; 3]) -> Option<u32> {
    let mut steps = [0; 3];
    for axis in 0..3 {
        let from_low = i64::from(point[axis]) - i64::from(root.corner[axis]);
        if !(0..1 << root.k).contains(&from_low) {
            return None;
        }
        steps[axis] = from_low as u32 >> (root.k - root.d);
    }
    let child = |bit: u8| {
        (0..3)
            .map(|axis| (steps[axis] >> bit & 1) << axis)
            .sum::<u32>()
    };
    Some(
        (0..root.d)
            .rev()
            .fold(0, |place, bit| 8 * place + child(bit)),
    )
}

/// Which records of a sheet are faces.
fn faces(records: &[Record]) -> [bool; 256] {
    let mut faces = [false; 256];
    for (face, record) in faces.iter_mut().zip(records) {
        *face = matches!(record, Record::Face(..));
    }
    faces
}

/// The root of a map that opens for these records, or the refusal.
pub fn opened(records: &[Record], map: &[u8]) -> Result<Root, Refusal> {
    let bad = |at: usize| (9, at as u64);
    let root = header(map).map_err(bad)?;
    open(&map[HEADER..], &faces(records), root.d, 0).map_err(bad)?;
    Ok(root)
}

/// Document 01's number for a point: 0 outside, 1 inside, 2 undecided.
pub fn lookup(sheet: &[u8], map: &[u8], point: [i32; 3]) -> Result<u64, Refusal> {
    let records = parse(sheet)?;
    let bad = |at: usize| (9, at as u64);
    let root = header(map).map_err(bad)?;
    let wanted = place(&root, point);
    let [_, class, face] = open(
        &map[HEADER..],
        &faces(&records),
        root.d,
        wanted.unwrap_or(0),
    )
    .map_err(bad)?;
    limited_over_root(&records, &root).map_err(|number| (7, number))?;
    if wanted.is_none() {
        return Err((10, 0));
    }
    Ok(match class {
        0 => 0,
        1 => 1,
        2 => satisfies(&records, face, point).into(),
        3 => (!satisfies(&records, face, point)).into(),
        _ => 2,
    })
}
