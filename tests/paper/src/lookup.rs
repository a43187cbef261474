//! Looking a point up in a zone map, and replies 9, 7 and 10.

use crate::bounds;
use crate::colour::{BLACK, TERMINAL, TERMINAL_COMPLEMENT, WHITE};
use crate::fractions::{Point, Values};
use crate::map::{self, Leaf, Map};
use crate::sheet::{self, Sheet};
use crate::{reply, Refusal, Reply};

pub const OUTSIDE: usize = 0;
pub const INSIDE: usize = 1;
pub const UNDECIDED: usize = 2;

/// A sheet and a map that pass every test before reply 10.
pub struct Opened {
    pub sheet: Sheet,
    pub map: Map,
}

/// Looks a point up.
pub fn lookup(sheet: &[u8], map: &[u8], point: [i32; 3]) -> Reply {
    match open(sheet, map) {
        Ok(opened) => opened.answer(point),
        Err(refusal) => refusal,
    }
}

/// The part of a lookup that does not depend on the point.
pub fn open(sheet: &[u8], map: &[u8]) -> Result<Opened, Refusal> {
    let sheet = sheet::read(sheet)?;
    let map = map::read_for(map, &sheet)?;
    bounds::within_limit(&sheet, &map.root)?;
    Ok(Opened { sheet, map })
}

impl Opened {
    /// The reply for a point, by the leaf that holds it.
    pub fn answer(&self, point: [i32; 3]) -> Reply {
        if !self.map.root.cube().holds(point) {
            return reply(10, 0);
        }
        let leaf = self.leaf(point);
        let leaf = leaf.expect("each whole point of the root is in one leaf");
        reply(0, self.by_leaf(leaf, point))
    }

    /// The leaf that holds a point.
    pub fn leaf(&self, point: [i32; 3]) -> Option<Leaf> {
        let mut cubes = self.map.cubes();
        cubes.find_map(|(cube, leaf)| cube.holds(point).then_some(leaf))
    }

    fn by_leaf(&self, leaf: Leaf, point: [i32; 3]) -> usize {
        let answer = |inside: bool| if inside { INSIDE } else { OUTSIDE };
        match leaf.colour.class {
            WHITE => OUTSIDE,
            BLACK => INSIDE,
            TERMINAL => answer(self.satisfies(leaf, point)),
            TERMINAL_COMPLEMENT => answer(!self.satisfies(leaf, point)),
            _ => UNDECIDED,
        }
    }

    /// Evaluates a terminal leaf's face exactly at the point.
    fn satisfies(&self, leaf: Leaf, point: [i32; 3]) -> bool {
        Values::at(&self.sheet, &Point::whole(point)).holds(usize::from(leaf.colour.face))
    }
}
