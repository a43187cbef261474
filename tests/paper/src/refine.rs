//! Request 2026-01, refining a finished map: "each gray leaf is replaced by what the building rules give for its cube at the
//! new depth, all others stand as they were, levels included." Its replies are "1 to 5, 9, then 6 for a smaller or illegal
//! depth, 7, 11, 8", without 11, which request 2026-11 drops.

use crate::bounds;
use crate::build::{add_leaves, lend, Colouring};
use crate::colour::{self, GRAY};
use crate::map::{self, Leaf, Map};
use crate::root::Root;
use crate::sheet::{self, Sheet};
use crate::{reply, Refusal, Reply};

/// Refines a map to a depth at the start of the second buffer; later bytes stay.
pub fn refine(sheet: &[u8], map: &[u8], d: u8, out: &mut [u8]) -> Reply {
    match map_of(sheet, map, d) {
        Ok(new) => lend(&new, out),
        Err(refusal) => refusal,
    }
}

/// The new map. Reply 9 has its sheet clause, since the sheet is at hand.
pub fn map_of(sheet: &[u8], map: &[u8], d: u8) -> Result<Vec<u8>, Refusal> {
    let sheet = sheet::read(sheet)?;
    let map = map::read_for(map, &sheet)?;
    let root = deepened(&map.root, d)?;
    bounds::within_limit(&sheet, &root)?;
    Ok(map::write(
        &root,
        &leaves(&colour::colour, &sheet, &map, root.d),
    ))
}

/// The map's root with a greater or equal depth, or 6 for a smaller or illegal one.
pub fn deepened(root: &Root, d: u8) -> Result<Root, Refusal> {
    let deeper = Root { d, ..*root };
    if d < root.d || !deeper.in_limits() {
        return Err(reply(6, 0));
    }
    Ok(deeper)
}

/// The leaves of the new map, by a given colouring. A gray leaf's cube is coloured again: it may turn out white, black or
/// terminal at its own level, at an equal depth too, and only a gray one is split.
pub fn leaves(colouring: &Colouring, sheet: &Sheet, map: &Map, d: u8) -> Vec<Leaf> {
    let mut leaves = Vec::new();
    for (cube, leaf) in map.cubes() {
        if leaf.colour.class == GRAY {
            add_leaves(colouring, sheet, d, &cube, &mut leaves);
        } else {
            leaves.push(leaf);
        }
    }
    leaves
}
