//! Building a zone map, and replies 6, 7 and 8.

use crate::bounds;
use crate::colour::{self, Colour, GRAY};
use crate::map::{self, Leaf};
use crate::root::{Cube, Root};
use crate::sheet::{self, Sheet};
use crate::{reply, Refusal, Reply};

/// Colours a cube. It is a parameter of building, so that a test can build by a wrong one.
pub type Colouring<'a> = dyn Fn(&Sheet, &Cube) -> Colour + 'a;

/// Builds the map of a sheet at the start of the lent buffer; later bytes stay.
pub fn build(sheet: &[u8], root: &Root, out: &mut [u8]) -> Reply {
    match map_of(sheet, root) {
        Ok(map) => lend(&map, out),
        Err(refusal) => refusal,
    }
}

/// The map of a sheet.
pub fn map_of(sheet: &[u8], root: &Root) -> Result<Vec<u8>, Refusal> {
    let sheet = sheet::read(sheet)?;
    map_by(&colour::colour, &sheet, root)
}

/// The map of a sheet, by a given colouring.
pub fn map_by(colouring: &Colouring, sheet: &Sheet, root: &Root) -> Result<Vec<u8>, Refusal> {
    if !root.in_limits() {
        return Err(reply(6, 0));
    }
    bounds::within_limit(sheet, root)?;
    let mut leaves = Vec::new();
    add_leaves(colouring, sheet, root.d, &root.cube(), &mut leaves);
    Ok(map::write(root, &leaves))
}

/// A cube that is gray at a level less than d is split; every other cube is a leaf.
pub fn add_leaves(
    colouring: &Colouring,
    sheet: &Sheet,
    d: u8,
    cube: &Cube,
    leaves: &mut Vec<Leaf>,
) {
    let colour = colouring(sheet, cube);
    if colour.class == GRAY && cube.level < d {
        for child in cube.children() {
            add_leaves(colouring, sheet, d, &child, leaves);
        }
    } else {
        let level = cube.level;
        leaves.push(Leaf { level, colour });
    }
}

/// Writes a map at the start of a buffer, unless the buffer is shorter.
pub fn lend(map: &[u8], out: &mut [u8]) -> Reply {
    if out.len() < map.len() {
        return reply(8, map.len());
    }
    out[..map.len()].copy_from_slice(map);
    reply(0, map.len())
}
