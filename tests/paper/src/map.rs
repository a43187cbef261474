//! "The zone map": its bytes, and reply 9.

use crate::colour::{Colour, GRAY, TERMINAL, TERMINAL_COMPLEMENT};
use crate::root::{Cube, Root};
use crate::sheet::Sheet;
use crate::{reply, Refusal, Reply};

#[derive(Clone, Copy, Debug, PartialEq, Eq)]
pub struct Leaf {
    pub level: u8,
    pub colour: Colour,
}

/// A map that opens.
#[derive(Clone, Debug, PartialEq, Eq)]
pub struct Map {
    pub root: Root,
    pub leaves: Vec<Leaf>,
}

pub const HEADER: usize = 19;
pub const LEAF: usize = 3;

/// The map of these leaves, good or not: 19 + 3n bytes.
pub fn write(root: &Root, leaves: &[Leaf]) -> Vec<u8> {
    let after_length = HEADER - 4 + LEAF * leaves.len();
    let mut bytes = (after_length as u32).to_be_bytes().to_vec();
    bytes.push(1);
    for low in root.low {
        bytes.extend(low.to_be_bytes());
    }
    bytes.extend([root.k, root.d]);
    for leaf in leaves {
        bytes.extend([leaf.level, leaf.colour.class, leaf.colour.face]);
    }
    bytes
}

/// Opens a map without its sheet, and returns the number of its leaves, or reply 9.
pub fn open(bytes: &[u8]) -> Reply {
    match read(bytes) {
        Ok(map) => reply(0, map.leaves.len()),
        Err(refusal) => refusal,
    }
}

/// Reads a map without the sheet clause: a terminal leaf may name any record.
pub fn read(bytes: &[u8]) -> Result<Map, Refusal> {
    read_with(bytes, &|_| true)
}

/// Reads a map for a sheet: a terminal leaf that does not name a face of the sheet is a fault too, in order of
/// offset with the others.
pub fn read_for(bytes: &[u8], sheet: &Sheet) -> Result<Map, Refusal> {
    read_with(bytes, &|number| sheet.is_face(number))
}

/// Reads a map whose terminal leaves may name only these records, or refuses it by reply 9 with the offset
/// of the first fault.
fn read_with(bytes: &[u8], may_name: &dyn Fn(usize) -> bool) -> Result<Map, Refusal> {
    if !length_is_good(bytes) {
        return Err(reply(9, 0));
    }
    if bytes[4] != 1 {
        return Err(reply(9, 4));
    }
    let root = root(bytes);
    if !root.in_limits() {
        return Err(reply(9, 5));
    }
    let leaves: Vec<Leaf> = bytes[HEADER..].chunks(LEAF).map(leaf).collect();
    match first_bad(&root, &leaves, may_name) {
        Some(number) => Err(reply(9, HEADER + LEAF * number)),
        None => Ok(Map { root, leaves }),
    }
}

/// The length agrees and is 15 + 3n.
fn length_is_good(bytes: &[u8]) -> bool {
    bytes.len() >= HEADER
        && number(&bytes[..4]) as usize == bytes.len() - 4
        && (bytes.len() - HEADER).is_multiple_of(LEAF)
}

fn number(four: &[u8]) -> u32 {
    u32::from_be_bytes(four.try_into().expect("four bytes"))
}

/// The root and depth in a map's header, in limits or not.
pub fn root(bytes: &[u8]) -> Root {
    Root {
        low: [5, 9, 13].map(|at| number(&bytes[at..at + 4]) as i32),
        k: bytes[17],
        d: bytes[18],
    }
}

fn leaf(three: &[u8]) -> Leaf {
    Leaf {
        level: three[0],
        colour: Colour {
            class: three[1],
            face: three[2],
        },
    }
}

/// The number of the first leaf that is bad or missing.
fn first_bad(root: &Root, leaves: &[Leaf], may_name: &dyn Fn(usize) -> bool) -> Option<usize> {
    let mut place = 0;
    for (number, leaf) in leaves.iter().enumerate() {
        let names_well = !leaf.is_terminal() || may_name(usize::from(leaf.colour.face));
        if !(leaf.is_good(root.d) && leaf.fits(root.d, place) && names_well) {
            return Some(number);
        }
        place += size(root.d, leaf.level);
    }
    (place != size(root.d, 0)).then_some(leaves.len())
}

/// 8^(d-level): the number of places that a leaf takes.
fn size(d: u8, level: u8) -> u64 {
    8u64.pow(u32::from(d - level))
}

impl Leaf {
    /// Level at most d, class at most 4, gray only at level d, face 0 unless class 2 or 3.
    fn is_good(&self, d: u8) -> bool {
        self.level <= d
            && self.colour.class <= GRAY
            && (self.colour.class != GRAY || self.level == d)
            && (self.colour.face == 0 || self.is_terminal())
    }

    /// Its place is a multiple of its own size, and it ends at or before 8^d.
    fn fits(&self, d: u8, place: u64) -> bool {
        let own = size(d, self.level);
        place.is_multiple_of(own) && place + own <= size(d, 0)
    }

    pub fn is_terminal(&self) -> bool {
        matches!(self.colour.class, TERMINAL | TERMINAL_COMPLEMENT)
    }
}

impl Map {
    /// Each leaf with its cube, in order.
    pub fn cubes(&self) -> impl Iterator<Item = (Cube, Leaf)> + '_ {
        let mut place = 0;
        self.leaves.iter().map(move |&leaf| {
            let cube = self.cube_at(place, leaf.level);
            place += size(self.root.d, leaf.level);
            (cube, leaf)
        })
    }

    /// The cube of a level that begins at a place. The digits of a place in base 8 are child numbers.
    fn cube_at(&self, place: u64, level: u8) -> Cube {
        (1..=level).fold(self.root.cube(), |cube, l| {
            cube.child((place / size(self.root.d, l) % 8) as usize)
        })
    }
}
