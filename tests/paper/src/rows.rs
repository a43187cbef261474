//! The rows of "Both sides of each line", with those that requests change, the step room, and the examples of how
//! sentences are read.

use crate::bounds::{interval, over, FURTHEST};
use crate::build::{build, map_of};
use crate::colour::{self, State};
use crate::lookup::{lookup, INSIDE, OUTSIDE, UNDECIDED};
use crate::map::open;
use crate::root::{Cube, Root};
use crate::sheet::{self, check, Record, Record::*, Sheet, Version::One};
use crate::{reply, Reply};

/// The bytes of a hex string.
pub fn hex(text: &str) -> Vec<u8> {
    let digits: Vec<u8> = text.bytes().filter(|c| !c.is_ascii_whitespace()).collect();
    let byte = |two: &[u8]| u8::from_str_radix(std::str::from_utf8(two).unwrap(), 16).unwrap();
    digits.chunks(2).map(byte).collect()
}

/// The step room's sheet.
pub fn s() -> Vec<u8> {
    hex("00 1D 01 01 02 01 03 05 01 00 00 00 02 03 06 00 02 03 06 01 02 02 10 03 02 10 04 03 11 05 06")
}

/// The leaves of one half of the step room's map at d 1.
const HALF: &str = "01 01 00 01 02 05 01 02 06 01 04 00";

/// The step room's map at d 1.
pub fn step_room() -> Vec<u8> {
    let header = "00 00 00 27 01 00 00 00 00 00 00 00 00 00 00 00 00 02 01";
    hex(&[header, HALF, HALF].concat())
}

pub fn root(x: i32, k: u8, d: u8) -> Root {
    let low = [x, 0, 0];
    Root { low, k, d }
}

/// The leaves of a map's bytes.
pub fn leaves(map: &[u8]) -> &[u8] {
    &map[19..]
}

pub fn is(given: Reply, code: u32, number: usize) {
    assert_eq!(given, reply(code, number));
}

#[test]
fn depth_0_is_one_gray_leaf() {
    let map = map_of(&s(), &root(0, 2, 0)).unwrap();
    assert_eq!(map.len(), 22);
    assert_eq!(leaves(&map), [0, 4, 0]);
}

#[test]
fn depth_1_is_the_step_room() {
    assert_eq!(map_of(&s(), &root(0, 2, 1)).unwrap(), step_room());
    let mut out = [7; 44];
    is(build(&s(), &root(0, 2, 1), &mut out), 0, 43);
    assert_eq!(out[..43], step_room());
    assert_eq!(out[43], 7);
    let mut short = [7; 42];
    is(build(&s(), &root(0, 2, 1), &mut short), 8, 43);
    assert_eq!(short, [7; 42]);
}

#[test]
fn depth_2_splits_each_gray_cube() {
    let map = map_of(&s(), &root(0, 2, 2)).unwrap();
    let split = "02 04 00 02 00 00 02 00 00 02 00 00".repeat(2);
    let half = format!("01 01 00 01 02 05 01 02 06 {split}");
    assert_eq!(map.len(), 85);
    assert_eq!(leaves(&map), hex(&half.repeat(2)));
}

#[test]
fn lookups_in_the_step_room() {
    let at = |x, y| lookup(&s(), &step_room(), [x, y, 0]);
    is(at(2, 0), 0, INSIDE);
    is(at(3, 0), 0, OUTSIDE);
    is(at(2, 2), 0, UNDECIDED);
    is(at(4, 0), 10, 0);
}

#[test]
fn bounds_of_the_rows() {
    let records = vec![X, Constant(10), Difference(1, 0), Product(0, 2)];
    let cube = Cube {
        low: [4, 4, 4],
        side: 2,
        level: 0,
    };
    let version = One;
    let bounds = over(&Sheet { version, records }, &cube);
    assert_eq!(bounds[3], Some(interval(16, 36)));
    let x = interval(-3, 2);
    assert_eq!(x.square(), interval(0, 9));
    assert_eq!(x.product(x), interval(-6, 9));
    assert_eq!(interval(-3, -2).square(), interval(4, 9));
    assert_eq!(interval(2, 3).square(), interval(4, 9));
}

#[test]
fn states_of_the_rows() {
    assert_eq!(colour::face(One, 5, interval(-2, 0)), State::In);
    assert_eq!(colour::face(One, 5, interval(0, 2)), State::Single(5));
    assert_eq!(colour::face(One, 5, interval(1, 2)), State::Out);
}

#[test]
fn a_single_face_gives_one_leaf_at_any_depth() {
    let sheet = sheet::write(One, &[X, Face(0)]);
    for d in 0..=10 {
        let map = map_of(&sheet, &root(0, 16, d)).unwrap();
        assert_eq!(leaves(&map), [0, 2, 1]);
    }
}

#[test]
fn the_limit_is_reached_and_passed() {
    let reached = [X, Square(0), Product(1, 0), Face(2)];
    let map = map_of(&sheet::write(One, &reached), &root(1048575, 0, 0)).unwrap();
    assert_eq!(map.len(), 22);
    let passed = [X, Square(0), Product(1, 0), Sum(2, 0), Face(3)];
    let mut out = [7; 22];
    is(
        build(&sheet::write(One, &passed), &root(1048575, 0, 0), &mut out),
        7,
        7,
    );
    assert_eq!(out, [7; 22]);
}

/// Over x and y from 0 to 1: 2^60 is record 3, -2^60 record 5, and record 8 has the bounds [-2^60, 2^60].
const AT_THE_LIMIT: [Record; 9] = [
    X,
    Y,
    Constant(1 << 30),
    Square(2),
    Constant(0),
    Difference(4, 3),
    Product(0, 3),
    Product(1, 5),
    Sum(6, 7),
];

/// What a build and a lookup return for these records and some more, from record 9 on. The map of the lookup is one of
/// the step room.
fn with_more(more: &[Record]) -> [Reply; 2] {
    let records = [&AT_THE_LIMIT[..], more, &[Face(0)]].concat();
    let (sheet, root) = (sheet::write(One, &records), root(0, 0, 0));
    let map = map_of(&s(), &root).unwrap();
    [
        build(&sheet, &root, &mut [0; 22]),
        lookup(&sheet, &map, [0, 0, 0]),
    ]
}

fn refused_by_7(more: &[Record], number: usize) {
    assert_eq!(with_more(more), [reply(7, number); 2]);
}

#[test]
fn the_limit_itself_is_accepted_at_both_ends() {
    let records = AT_THE_LIMIT.to_vec();
    let version = One;
    let bounds = over(&Sheet { version, records }, &root(0, 0, 0).cube());
    assert_eq!(bounds[8], Some(interval(-FURTHEST, FURTHEST)));
    assert_eq!(with_more(&[]), [reply(0, 22), reply(0, INSIDE)]);
}

#[test]
fn reply_7_says_which_end() {
    // The high end alone: [2^60, 2^60 + 1]. The low end alone: [-2^60 - 1, -2^60].
    refused_by_7(&[Sum(3, 0)], 19);
    refused_by_7(&[Difference(5, 0)], 18);
    // Both ends, on either side: the low end.
    refused_by_7(&[Sum(8, 8)], 18);
    // A low end above 2^60, and two ends below -2^60.
    refused_by_7(&[Sum(3, 2)], 18);
    refused_by_7(&[Square(3)], 18);
    refused_by_7(&[Difference(5, 2)], 18);
    // A negative factor and a difference change the ends over, and no square is below 0.
    refused_by_7(&[Product(6, 5)], 18);
    refused_by_7(&[Product(7, 5)], 19);
    refused_by_7(&[Difference(5, 6)], 18);
    refused_by_7(&[Difference(3, 7)], 19);
    refused_by_7(&[Square(8)], 19);
}

#[test]
fn the_first_record_decides_and_then_its_end() {
    let (low, high) = (Difference(5, 0), Sum(3, 0));
    refused_by_7(&[high.clone(), low.clone()], 19);
    refused_by_7(&[low, high.clone()], 18);
    refused_by_7(&[Constant(1), high], 21);
}

#[test]
fn sheets_that_are_good() {
    is(check(&s()), 0, 8);
    is(check(&sheet::write(One, &[Z, Face(0)])), 0, 2);
}

#[test]
fn sheets_that_are_refused() {
    let refused = |text| check(&hex(text));
    is(refused(""), 1, 0);
    is(refused("00 00"), 1, 0);
    is(refused("00 02 01"), 1, 0);
    is(refused("00 01 00"), 2, 0);
    is(refused("00 01 03"), 2, 0);
    is(refused("00 01 FF"), 2, 0);
    is(refused("00 01 01"), 5, 0);
    is(refused("00 03 01 01 02"), 5, 1);
    is(refused("00 02 01 00"), 3, 3);
    is(refused("00 04 01 02 02 00"), 3, 3);
    is(refused("00 03 01 01 09"), 3, 3);
    is(refused("00 04 01 01 02 02"), 3, 5);
    is(refused("00 04 01 02 10 00"), 4, 0);
    is(refused("00 07 01 01 02 02 10 01 00"), 3, 8);
    is(refused("00 08 01 01 02 02 10 00 01 13"), 3, 8);
    is(refused("00 08 01 01 02 02 13 00 01 02"), 4, 1);
    // All records are framed before any operand is tested.
    is(refused("00 06 01 02 10 09 01 09"), 3, 6);
}

#[test]
fn at_most_256_records() {
    let mut records = vec![X; 255];
    records.push(Face(0));
    is(check(&sheet::write(One, &records)), 0, 256);
    let mut one_more = sheet::write(One, &records);
    let length = one_more.len();
    one_more.push(200);
    one_more[..2].copy_from_slice(&(length as u16 - 1).to_be_bytes());
    is(check(&one_more), 3, length);
}

#[test]
fn limits_of_the_root() {
    let refused = |x, k, d| map_of(&s(), &root(x, k, d)) == Err(reply(6, 0));
    assert!(!refused(-1048576, 16, 0) && refused(-1048577, 16, 0));
    assert!(!refused(983040, 16, 0) && refused(983041, 16, 0));
    assert!(refused(i32::MAX, 0, 0) && refused(i32::MIN, 0, 0));
    assert!(refused(0, 17, 0) && refused(0, 255, 0));
    assert!(refused(0, 2, 3) && refused(0, 16, 11) && refused(0, 16, 255));
}

/// The step room's map with other bytes from an offset on, and a length that agrees.
fn changed(at: usize, bytes: &str) -> Vec<u8> {
    let mut map = step_room();
    map.truncate(at);
    map.extend(hex(bytes));
    let length = map.len() as u32 - 4;
    map[..4].copy_from_slice(&length.to_be_bytes());
    map
}

#[test]
fn maps_that_open() {
    is(open(&step_room()), 0, 8);
    let of_depth = |d| open(&map_of(&s(), &root(0, 2, d)).unwrap());
    is(of_depth(0), 0, 1);
    is(of_depth(2), 0, 22);
}

#[test]
fn maps_that_are_refused() {
    let refused = |map: &[u8], offset| {
        is(open(map), 9, offset);
        is(lookup(&s(), map, [0, 0, 0]), 9, offset);
    };
    refused(&[], 0);
    refused(&step_room()[..42], 0);
    refused(&[step_room(), vec![0]].concat(), 0);
    refused(&changed(41, ""), 0);
    refused(&changed(4, &format!("02 {}", "00 ".repeat(14))), 4);
    refused(&changed(17, "11 01"), 5);
    refused(&changed(17, "02 03"), 5);
    // No leaves: they stop short.
    refused(&changed(19, ""), 19);
    refused(&changed(40, ""), 40);
    refused(&changed(40, "01 04 00 01 04 00"), 43);
    refused(&changed(19, "00 04 00"), 19);
    refused(&changed(22, "02 04 00"), 22);
    refused(&changed(22, "00 01 00"), 22);
    refused(&changed(22, "01 05 00"), 22);
    refused(&changed(22, "01 01 05"), 22);
}

#[test]
fn only_lookup_asks_whether_a_terminal_leaf_names_a_face() {
    let mut no_face = step_room();
    no_face[24] = 7;
    is(open(&no_face), 0, 8);
    is(lookup(&s(), &no_face, [0, 0, 0]), 9, 22);
    // It comes in order of offset with other bad leaves.
    let two_faults = changed(22, "01 02 07 01 09 00");
    is(open(&two_faults), 9, 25);
    is(lookup(&s(), &two_faults, [0, 0, 0]), 9, 22);
}

#[test]
fn a_complement_turns_the_answer_over() {
    let sheet = sheet::write(One, &[X, Face(0), Complement(1)]);
    let map = map_of(&sheet, &root(-4, 3, 3)).unwrap();
    assert_eq!(leaves(&map), [0, 3, 1]);
    is(lookup(&sheet, &map, [0, 1, 1]), 0, OUTSIDE);
    is(lookup(&sheet, &map, [1, 1, 1]), 0, INSIDE);
}

#[test]
fn lookup_refuses_by_9_before_7_before_10() {
    let sheet = sheet::write(One, &[Constant(i32::MIN), Square(0), Face(1)]);
    let far = [i32::MAX; 3];
    let good = map_of(&s(), &root(0, 2, 0)).unwrap();
    is(lookup(&sheet, &good[..21], far), 9, 0);
    is(lookup(&sheet, &good, far), 7, 2);
    is(lookup(&s(), &good, far), 10, 0);
}
