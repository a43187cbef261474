//! The rows of request 2026-01: maps that are refined, and why refining is refused.

use crate::build::map_of;
use crate::colour::{Colour, GRAY};
use crate::map::{self, Leaf};
use crate::refine::{self, refine};
use crate::root::Root;
use crate::rows::{hex, is, leaves, root, s, step_room};
use crate::sheet::{self, Record::*, Version::*, VERSIONS};
use crate::{before_03, reply};

/// The step room's sheet built at a depth, over x, y and z from 0 to 4.
fn built(d: u8) -> Vec<u8> {
    map_of(&s(), &root(0, 2, d)).unwrap()
}

/// A map over x, y and z from 0 to 4 that has only gray leaves, all of level d.
fn all_gray(d: u8) -> Vec<u8> {
    let colour = Colour {
        class: GRAY,
        face: 0,
    };
    let leaf = Leaf { level: d, colour };
    map::write(&root(0, 2, d), &vec![leaf; 1 << (3 * d)])
}

/// The leaves of a map, refined with a sheet.
fn refined(sheet: &[u8], map: &[u8], d: u8) -> Vec<u8> {
    let new = refine::map_of(sheet, map, d).unwrap();
    leaves(&new).to_vec()
}

/// The first n leaves of a map's bytes.
fn first(n: usize, map: &[u8]) -> Vec<u8> {
    leaves(map)[..3 * n].to_vec()
}

#[test]
fn the_step_room_becomes_the_one_built_afresh() {
    let mut out = [7; 86];
    is(refine(&s(), &step_room(), 2, &mut out), 0, 85);
    assert_eq!(out[..85], built(2));
    assert_eq!(out[85], 7);
    // From each depth to each that is not smaller.
    for (from, to) in [(0, 0), (0, 1), (0, 2), (1, 1), (1, 2), (2, 2)] {
        assert_eq!(refine::map_of(&s(), &built(from), to), Ok(built(to)));
    }
}

#[test]
fn to_an_equal_depth_it_is_the_same_map() {
    let mut out = [7; 43];
    is(refine(&s(), &step_room(), 1, &mut out), 0, 43);
    assert_eq!(out.as_slice(), step_room());
}

/// The header has the same root and k, the new depth, and the new length.
#[test]
fn the_header_has_the_new_depth_and_length() {
    let new = refine::map_of(&s(), &step_room(), 2).unwrap();
    assert_eq!(new[..4], hex("00 00 00 51"));
    assert_eq!(new[4..18], step_room()[4..18]);
    assert_eq!(new[18], 2);
}

#[test]
fn a_short_buffer_stays_as_it_was() {
    let mut short = [7; 84];
    is(refine(&s(), &step_room(), 2, &mut short), 8, 85);
    assert_eq!(short, [7; 84]);
    is(refine(&s(), &step_room(), 2, &mut []), 8, 85);
    is(refine(&s(), &step_room(), 1, &mut [0; 42]), 8, 43);
}

/// The first leaf of eight is black by the rules, the second and third are terminal, the last of four is gray: also at an
/// equal depth.
#[test]
fn a_gray_leaf_may_be_black_or_terminal_at_its_own_level() {
    assert_eq!(refined(&s(), &all_gray(1), 1), leaves(&step_room()));
    assert_eq!(refined(&s(), &all_gray(1), 2), leaves(&built(2)));
    // One that is not gray by the rules, among those of the step room.
    let mut map = step_room();
    map[20..22].copy_from_slice(&[GRAY, 0]);
    assert_eq!(refine::map_of(&s(), &map, 1), Ok(step_room()));
    assert_eq!(refine::map_of(&s(), &map, 2), Ok(built(2)));
}

/// At level 2, x from 3 to 4 is outside, and so is y from 3 to 4.
#[test]
fn a_gray_leaf_may_be_white_at_its_own_level() {
    let black = "02 01 00".repeat(8);
    let by_x = "02 02 05 02 00 00".repeat(4);
    let by_y = "02 02 06 02 02 06 02 00 00 02 00 00".repeat(2);
    let corner = "02 04 00 02 00 00 02 00 00 02 00 00".repeat(2);
    let half = [black, by_x, by_y, corner].concat();
    assert_eq!(refined(&s(), &all_gray(2), 2), hex(&half.repeat(2)));
}

/// Where x is at most 1 and y at most 1, the step room's gray leaves are outside, at their own level and at any depth.
#[test]
fn a_map_of_another_sheet() {
    let faces = [Difference(0, 2), Difference(1, 2), Face(3), Face(4)];
    let narrow = [&[X, Y, Constant(1)][..], &faces, &[Both(5, 6)]].concat();
    let half = "01 01 00 01 02 05 01 02 06 01 00 00";
    for version in VERSIONS {
        let sheet = sheet::write(version, &narrow);
        for d in 1..=2 {
            assert_eq!(refined(&sheet, &step_room(), d), hex(&half.repeat(2)));
        }
    }
}

/// The leaves that stand are those of version 1. The gray ones are coloured by version 2: from 2 on all is outside.
#[test]
fn a_map_of_the_other_version() {
    let strict = sheet::write(Two, &sheet::read(&s()).unwrap().records);
    let half = "01 01 00 01 02 05 01 02 06 01 00 00";
    for d in 1..=2 {
        assert_eq!(refined(&strict, &step_room(), d), hex(&half.repeat(2)));
    }
}

/// A leaf that stands is not tested: here white ones where the room is, at level 0 and at level 1.
#[test]
fn other_leaves_stand_as_they_were() {
    let white = hex("00 00 00 12 01 00 00 00 00 00 00 00 00 00 00 00 00 02 00 00 00 00");
    for d in 0..=2 {
        assert_eq!(refined(&s(), &white, d), [0, 0, 0]);
    }
    let mut map = step_room();
    map[19..22].copy_from_slice(&[1, 0, 0]);
    map[22..25].copy_from_slice(&[1, 3, 6]);
    let new = refine::map_of(&s(), &map, 2).unwrap();
    assert_eq!(first(2, &new), hex("01 00 00 01 03 06"));
    assert_eq!(leaves(&new)[6..], leaves(&built(2))[6..]);
}

/// Before request 2026-03 a face with itself was gray where it is one face now.
#[test]
fn a_map_of_before_2026_03() {
    let sheet = sheet::write(
        One,
        &[X, Constant(2), Difference(0, 1), Face(2), Both(3, 3)],
    );
    let old = before_03::map_of(&sheet, &root(0, 2, 1)).unwrap();
    assert_eq!(leaves(&old), hex(&"01 01 00 01 04 00".repeat(4)));
    for d in 1..=2 {
        let half = "01 01 00 01 02 03";
        assert_eq!(refined(&sheet, &old, d), hex(&half.repeat(4)));
    }
    // Afresh it is one leaf, so refining an old map need not give that.
    assert_eq!(leaves(&map_of(&sheet, &root(0, 2, 2)).unwrap()), [0, 2, 3]);
}

#[test]
fn a_smaller_or_illegal_depth_is_refused() {
    let refused = |map: &[u8], d| is(refine(&s(), map, d, &mut []), 6, 0);
    refused(&step_room(), 0);
    refused(&built(2), 1);
    // Over k.
    refused(&step_room(), 3);
    refused(&step_room(), 255);
    // Over 10.
    let deep = map_of(&s(), &root(0, 12, 10)).unwrap();
    assert_eq!(refine::map_of(&s(), &deep, 10), Ok(deep.clone()));
    refused(&deep, 11);
    refused(&deep, 12);
    refused(&deep, 9);
}

#[test]
fn a_bad_sheet_or_map_is_refused_before_the_depth() {
    let depths = [0, 1, 2, 255];
    let mut bad = step_room();
    bad[22] = 2;
    let mut no_face = step_room();
    no_face[24] = 7;
    for d in depths {
        is(refine(&s(), &bad, d, &mut []), 9, 22);
        is(refine(&s(), &no_face, d, &mut []), 9, 22);
        is(refine(&s(), &step_room()[..42], d, &mut []), 9, 0);
        is(refine(&s()[..30], &step_room(), d, &mut []), 1, 0);
        is(refine(&hex("00 01 03"), &bad, d, &mut []), 2, 0);
        is(refine(&hex("00 02 01 00"), &bad, d, &mut []), 3, 3);
        is(refine(&hex("00 04 01 02 10 00"), &bad, d, &mut []), 4, 0);
        is(refine(&hex("00 03 01 01 02"), &bad, d, &mut []), 5, 1);
    }
}

/// 6 comes before 7, which is tested over the map's root, and 7 before 8.
#[test]
fn the_depth_is_refused_before_the_bounds() {
    let passed = sheet::write(One, &[X, Square(0), Product(1, 0), Sum(2, 0), Face(3)]);
    let at = |low| Root {
        low: [low, 0, 0],
        k: 1,
        d: 1,
    };
    let gray = |low| map_of(&s(), &Root { d: 0, ..at(low) }).unwrap();
    let deep = |low| map_of(&s(), &at(low)).unwrap();
    // The cube of x plus x passes 2^60 only near 2^20, where the step room's map is one white leaf, whatever its depth.
    let near = (1 << 20) - 2;
    is(refine(&passed, &deep(near), 0, &mut []), 6, 0);
    is(refine(&passed, &gray(near), 2, &mut []), 6, 0);
    is(refine(&passed, &deep(near), 1, &mut []), 7, 7);
    is(refine(&passed, &gray(near), 0, &mut [0; 22]), 7, 7);
    is(refine(&passed, &deep(0), 1, &mut []), 8, 22);
    assert_eq!(refine::deepened(&at(0), 1), Ok(at(0)));
    assert_eq!(refine::deepened(&at(0), 2), Err(reply(6, 0)));
}
