//! Sheets to measure with: a corridor of rooms with bays, columns and domes in 50, 150 and 256 records, vaults whose faces are products in as
//! many, a round hall in 16 and in 50, one with high powers, and one that is gray to depth 10.
use crate::baseline::Root;
use crate::drawing::Sheet;

/// A sheet with the root and depth at which it is built.
pub struct Case {
    pub records: usize,
    pub sheet: Vec<u8>,
    pub root: Root,
}

/// The most records that a part of a room takes (apart from the first box).
const MOST_OF_A_PART: usize = 14;
/// The records that a vault takes.
const RECORDS_OF_A_VAULT: usize = 19;
/// The fewest records that cuts take; they can take any number from this on.
pub const LEAST_CUT: usize = 13;

const FLOOR: i32 = 80;
const CEILING: i32 = 780;

/// The dimensions of the i-th room of the corridor: its west wall, width and window wall.
fn measures(i: i32) -> (i32, i32, i32) {
    (100 + 1000 * i, 970 - 13 * i, 1500 + 7 * i)
}

fn space(s: &mut Sheet, i: i32) -> u8 {
    let (west, width, window) = measures(i);
    let (x, y, z) = (
        s.slab(0, west, west + width),
        s.slab(1, 300, window),
        s.slab(2, FLOOR, CEILING),
    );
    let plan = s.both(x, y);
    s.both(plan, z)
}

/// The solid with a bay on the room's window wall.
fn bay(s: &mut Sheet, i: i32, solid: u8) -> u8 {
    let (west, width, window) = measures(i);
    let (round, z) = (
        s.cylinder(west + width / 2, window, 250 + 9 * i),
        s.slab(2, FLOOR, CEILING),
    );
    let bay = s.both(round, z);
    s.either(solid, bay)
}

/// The solid with a dome over the room.
fn dome(s: &mut Sheet, i: i32, solid: u8) -> u8 {
    let (west, width, _) = measures(i);
    let dome = s.sphere([west + width / 2, 900, CEILING], 190 + 11 * i);
    s.either(solid, dome)
}

/// The solid less a column in the room.
fn column(s: &mut Sheet, i: i32, solid: u8) -> u8 {
    let (west, ..) = measures(i);
    let column = s.cylinder(west + 200 + 17 * i, 640, 31 + i);
    let clear = s.complement(column);
    s.both(solid, clear)
}

/// The solid with one more room.
fn room(s: &mut Sheet, i: i32, solid: u8) -> u8 {
    let next = space(s, i);
    s.either(solid, next)
}

/// The solid with a vault: its roof is a saddle, (x - a)(y - b) at most c (z - h), and its front is curved, c (y - b) at most (x - a)(e - x).
/// The vaults stand on all sides of the origin, so that factors of all signs occur.
fn vault(s: &mut Sheet, i: i32, solid: u8) -> u8 {
    let (west, scale) = (-1700 + 290 * i, 300 + 13 * i);
    let (x, y, z) = (
        s.offset(0, west),
        s.offset(1, 210 - 35 * i),
        s.offset(2, 55 * i - 330),
    );
    let scale = s.constant(scale);
    let (curved, straight) = (s.product(x, y), s.product(scale, z));
    let roof = s.not_above(curved, straight);
    let (east, east_wall) = (s.coordinate(0), s.constant(west + 900));
    let inward = s.difference(east_wall, east);
    let (deep, round) = (s.product(scale, y), s.product(x, inward));
    let front = s.not_above(deep, round);
    let vault = s.both(roof, front);
    s.either(solid, vault)
}

/// Slanting planes: where y + z is `low` and more, with a complement, and where it is `high` and more, each `apart` from the one before.
pub struct Slants {
    pub low: i32,
    pub high: i32,
    pub apart: i32,
}

/// Cuts the solid by a slanting roof, until there are exactly `records` records.
fn roof(s: &mut Sheet, solid: u8, records: usize) -> u8 {
    let (low, high, apart) = (410, 2300, 15);
    cut(s, solid, records, &Slants { low, high, apart })
}

/// Cuts the solid by slanting planes, of four records or of five with a complement, until there are exactly `records` records.
pub fn cut(s: &mut Sheet, mut solid: u8, records: usize, slants: &Slants) -> u8 {
    let (y, z) = (s.coordinate(1), s.coordinate(2));
    let slant = s.sum(y, z);
    let fives = (records - s.count()) % 4;
    let mut planes = 0;
    while s.count() < records {
        let further = slants.apart * planes as i32;
        let plane = if planes < fives {
            let low = s.at_most(slant, slants.low + further);
            s.complement(low)
        } else {
            s.at_most(slant, slants.high + further)
        };
        solid = s.both(solid, plane);
        planes += 1;
    }
    solid
}

/// The case of a sheet with exactly `records` records.
pub fn finished(s: Sheet, records: usize, root: Root) -> Case {
    assert_eq!(s.count(), records);
    Case {
        records,
        sheet: s.finish(),
        root,
    }
}

/// A root whose low corner is the origin.
pub fn from_origin(k: u8, d: u8) -> Root {
    Root {
        corner: [0, 0, 0],
        k,
        d,
    }
}

/// As many rooms with their parts as fit, under a roof that takes the rest of the `records` records.
fn corridor(records: usize, k: u8, d: u8) -> Case {
    let mut s = Sheet::default();
    let mut solid = space(&mut s, 0);
    let parts: [fn(&mut Sheet, i32, u8) -> u8; 4] = [room, bay, dome, column];
    let mut next = 1;
    while s.count() + MOST_OF_A_PART + LEAST_CUT <= records {
        solid = parts[next % parts.len()](&mut s, (next / parts.len()) as i32, solid);
        next += 1;
    }
    roof(&mut s, solid, records);
    finished(s, records, from_origin(k, d))
}

/// A floor with as many vaults as fit, under a roof that takes the rest of the `records` records, over a root with the origin at its centre.
fn vaults(records: usize, k: u8, d: u8) -> Case {
    let mut s = Sheet::default();
    let mut solid = s.slab(2, -450, -430);
    let mut next = 0;
    while s.count() + RECORDS_OF_A_VAULT + LEAST_CUT <= records {
        solid = vault(&mut s, next, solid);
        next += 1;
    }
    roof(&mut s, solid, records);
    let low = -(1 << (k - 1));
    finished(
        s,
        records,
        Root {
            corner: [low; 3],
            k,
            d,
        },
    )
}

/// The sheets of the speed measure, without products.
pub fn corridors() -> [Case; 3] {
    [
        corridor(50, 11, 7),
        corridor(150, 12, 7),
        corridor(256, 13, 8),
    ]
}

/// The sheets of the speed measure, with products.
pub fn vaulted() -> [Case; 3] {
    [vaults(50, 12, 5), vaults(150, 12, 5), vaults(256, 12, 5)]
}

/// A quarter of a round hall, whose wall is two cylinders a few units apart, so that a deeper map has more leaves. If `records` is more than
/// the wall takes, there is a room in the hall, whose roof takes the rest.
fn hall(records: usize, d: u8) -> Case {
    let mut s = Sheet::default();
    let (outer, inner) = (s.cylinder(0, 0, 5000), s.cylinder(0, 0, 4984));
    let clear = s.complement(inner);
    let wall = s.both(outer, clear);
    if s.count() < records {
        let space = space(&mut s, 0);
        let room = roof(&mut s, space, records - 1);
        s.either(wall, room);
    }
    finished(s, records, from_origin(14, d))
}

/// Fourth powers, which pass the limit over a root that is large or far away. It is a version 2 sheet.
pub fn steep() -> Case {
    let mut s = Sheet::default();
    let [x, y] = [0, 1].map(|axis| {
        let square = s.offset_squared(axis, 0);
        let power = s.product(square, square);
        s.at_most(power, 200 * 200 * 200 * 200)
    });
    s.both(x, y);
    Case {
        records: s.count(),
        sheet: s.finish_as(2),
        root: Root {
            corner: [-700, -300, -5],
            k: 10,
            d: 6,
        },
    }
}

/// The sheets and roots of the maps for lookups: about 1,000, 20,000 and 1,000,000 leaves of each sheet.
pub fn halls() -> [Case; 6] {
    [(16, 5), (50, 5), (16, 7), (50, 7), (16, 10), (50, 10)].map(|(records, d)| hall(records, d))
}

/// One point, as two faces that only that point satisfies: gray to depth 10 around it and white elsewhere. All kinds are used.
pub fn point() -> Case {
    let mut s = Sheet::default();
    let centre = [341, 682, 170];
    let first = s.sphere(centre, 0);
    let [x, y, z] = [0, 1, 2].map(|axis| s.offset(axis, centre[axis as usize]));
    let squares = [s.product(x, x), s.product(y, y), s.product(z, z)];
    let flat = s.sum(squares[0], squares[1]);
    let distance = s.sum(flat, squares[2]);
    let second = s.at_most(distance, 0);
    let outside = s.complement(first);
    let beside = s.complement(second);
    let elsewhere = s.either(outside, beside);
    s.complement(elsewhere);
    Case {
        records: s.count(),
        sheet: s.finish(),
        root: Root {
            corner: [0, 0, 0],
            k: 10,
            d: 10,
        },
    }
}
