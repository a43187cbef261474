//! Whole buildings to measure with, which are built deep: a floor of rooms with doors and columns, and a round tower of storeys with balconies.
use crate::drawing::Sheet;
use crate::sheets::{cut, finished, from_origin, Case, Slants, LEAST_CUT};

/// The most records that a part of a floor takes, and a part of a tower.
const MOST_OF_A_FLOOR: usize = 24;
const MOST_OF_A_TOWER: usize = 21;

/// The rooms stand in rows of this many.
const IN_A_ROW: i32 = 3;

/// Adds the i-th part of a sort to the solid.
type Part = fn(&mut Sheet, i32, u8) -> u8;

/// Adds parts of each sort in turn, as many as fit, if slanting planes are to take the rest of the `records` records. Returns how many.
fn furnish(s: &mut Sheet, solid: &mut u8, parts: &[Part], most: usize, records: usize) -> i32 {
    let mut next = 0;
    while s.count() + most + LEAST_CUT <= records {
        *solid = parts[next % parts.len()](s, (next / parts.len()) as i32, *solid);
        next += 1;
    }
    next as i32
}

/// A box, from three pairs of planes.
fn boxed(s: &mut Sheet, stretches: [[i32; 2]; 3]) -> u8 {
    let [x, y, z] = [0, 1, 2].map(|axis| {
        let [low, high] = stretches[axis as usize];
        s.slab(axis, low, high)
    });
    let plan = s.both(x, y);
    s.both(plan, z)
}

/// The west and south wall of the i-th room of a floor.
fn walls(i: i32) -> [i32; 2] {
    [300 + 2500 * (i % IN_A_ROW), 420 + 2600 * (i / IN_A_ROW)]
}

/// The rooms differ in size, so that few walls lie in one plane.
fn space(s: &mut Sheet, i: i32) -> u8 {
    let [west, south] = walls(i);
    let x = [west, west + 2260 - 37 * i];
    let y = [south, south + 2330 - 53 * i];
    boxed(s, [x, y, [700, 3170 + 90 * (i % 2)]])
}

fn column(s: &mut Sheet, i: i32, solid: u8) -> u8 {
    let [west, south] = walls(i);
    let column = s.cylinder(west + 900, south + 1200, 190 + 17 * i);
    let around = s.complement(column);
    s.both(solid, around)
}

fn next_room(s: &mut Sheet, i: i32, solid: u8) -> u8 {
    let room = space(s, i + 1);
    s.either(solid, room)
}

/// A door in the west wall of a room.
fn door(s: &mut Sheet, i: i32, solid: u8) -> u8 {
    let [west, south] = walls(i + 1);
    let y = [south + 700, south + 1610];
    let door = boxed(s, [[west - 400, west + 100], y, [700, 2810]]);
    s.either(solid, door)
}

/// A floor with as many rooms as fit, under a slanting roof.
pub fn rooms(records: usize, d: u8) -> Case {
    let mut s = Sheet::default();
    let mut solid = space(&mut s, 0);
    let parts: [Part; 3] = [next_room, door, column];
    let count = furnish(&mut s, &mut solid, &parts, MOST_OF_A_FLOOR, records);
    let back = 2600 * (count / 3 / IN_A_ROW);
    let slants = Slants {
        low: 1500,
        high: 5000 + back,
        apart: 130,
    };
    cut(&mut s, solid, records, &slants);
    finished(s, records, from_origin(13, d))
}

/// The height of the i-th floor of a tower.
fn height(i: i32) -> i32 {
    700 + 630 * i
}

/// A storey around the stairs, narrower than the one below it.
fn storey(s: &mut Sheet, i: i32, solid: u8) -> u8 {
    let heights = s.slab(2, height(i), height(i) + 560);
    let wall = s.cylinder(4000, 4000, 3100 - 90 * i);
    let stairs = s.cylinder(4000, 4000, 410 + 5 * i);
    let around = s.complement(stairs);
    let ring = s.both(wall, around);
    let storey = s.both(ring, heights);
    s.either(solid, storey)
}

fn balcony(s: &mut Sheet, i: i32, solid: u8) -> u8 {
    let x = [3100 + 40 * i, 4700 + 30 * i];
    let y = [6500 - 80 * i, 7700 - 80 * i];
    let balcony = boxed(s, [x, y, [height(i), height(i) + 230]]);
    s.either(solid, balcony)
}

/// A round tower with as many storeys as fit, under a slanting roof. It takes 16 records at least.
pub fn tower(records: usize, d: u8) -> Case {
    let mut s = Sheet::default();
    let shaft = s.cylinder(4000, 4000, 600);
    let up = s.coordinate(2);
    let ground = s.at_least(up, 310);
    let mut solid = s.both(shaft, ground);
    let parts: [Part; 2] = [storey, balcony];
    let count = furnish(&mut s, &mut solid, &parts, MOST_OF_A_TOWER, records);
    if s.count() < records {
        let slants = Slants {
            low: 2100,
            high: 6900 + height(count / 2),
            apart: 130,
        };
        cut(&mut s, solid, records, &slants);
    }
    finished(s, records, from_origin(13, d))
}
