//! The rows of request 2026-07: what a version 2 sheet gives where document 01's rows have a version 1 sheet.

use crate::bounds::interval;
use crate::build::map_of;
use crate::colour::{face, State, State::*};
use crate::lookup::{lookup, INSIDE, OUTSIDE, UNDECIDED};
use crate::rows::{hex, is, leaves, root, s, step_room};
use crate::sheet::{check, read, write, Record::*, Version::*, VERSIONS};

/// The step room's sheet as version 2: x less than 2 and y less than 2.
fn strict() -> Vec<u8> {
    let mut sheet = s();
    sheet[2] = 2;
    sheet
}

/// The bytes of its map at a depth.
fn strict_map(d: u8) -> Vec<u8> {
    map_of(&strict(), &root(0, 2, d)).unwrap()
}

/// At d 1, one half: the gray cube, and three that are outside, since their bounds begin at 0.
const HALF: &str = "01 04 00 01 00 00 01 00 00 01 00 00";

#[test]
fn states_of_a_face() {
    let of = |low, high| VERSIONS.map(|version| face(version, 5, interval(low, high)));
    let alike = |state: State| [state, state];
    assert_eq!(of(-2, 0), [In, Single(5)]);
    assert_eq!(of(0, 0), [In, Out]);
    assert_eq!(of(0, 2), [Single(5), Out]);
    assert_eq!(of(-2, -1), alike(In));
    assert_eq!(of(-2, 2), alike(Single(5)));
    assert_eq!(of(1, 2), alike(Out));
}

#[test]
fn the_step_room_at_each_depth() {
    assert_eq!(leaves(&strict_map(0)), [0, 4, 0]);
    assert_eq!(leaves(&strict_map(1)), hex(&HALF.repeat(2)));
    // A gray cube becomes black, terminal by each face and gray again, twice.
    let split = "02 01 00 02 02 05 02 02 06 02 04 00".repeat(2);
    let half = HALF.replace("01 04 00", &split);
    assert_eq!(leaves(&strict_map(2)), hex(&half.repeat(2)));
    assert_eq!(
        [0, 1, 2].map(|d| strict_map(d).len()),
        [22, 43, 85],
        "as long as those of version 1"
    );
}

#[test]
fn lookups_in_the_step_room() {
    let at = |d, x, y| lookup(&strict(), &strict_map(d), [x, y, 0]);
    is(at(1, 0, 0), 0, UNDECIDED);
    is(at(1, 2, 0), 0, OUTSIDE);
    is(at(1, 4, 0), 10, 0);
    is(at(2, 0, 0), 0, INSIDE);
    is(at(2, 1, 0), 0, INSIDE);
    is(at(2, 0, 1), 0, INSIDE);
    is(at(2, 1, 1), 0, UNDECIDED);
    is(at(2, 2, 0), 0, OUTSIDE);
    is(at(2, 2, 2), 0, OUTSIDE);
}

/// A map does not record the version of its sheet: the lent sheet's rule answers a terminal leaf.
#[test]
fn the_map_of_the_other_version() {
    let at = |x, y| {
        let replies = [s(), strict()].map(|sheet| lookup(&sheet, &step_room(), [x, y, 0]));
        replies.map(|reply| reply.number as usize)
    };
    assert_eq!(at(0, 0), [INSIDE, INSIDE]);
    assert_eq!(at(2, 0), [INSIDE, OUTSIDE]);
    assert_eq!(at(0, 2), [INSIDE, OUTSIDE]);
    assert_eq!(at(3, 0), [OUTSIDE, OUTSIDE]);
    assert_eq!(at(2, 2), [UNDECIDED, UNDECIDED]);
    is(lookup(&strict(), &step_room(), [4, 0, 0]), 10, 0);
    // A leaf that names no face is refused alike.
    let mut no_face = step_room();
    no_face[24] = 7;
    for sheet in [s(), strict()] {
        is(lookup(&sheet, &no_face, [0, 0, 0]), 9, 22);
    }
}

/// One face or its complement, over x from -4 to 4.
#[test]
fn a_point_on_a_face() {
    for (version, on_face, off_face) in [(One, INSIDE, OUTSIDE), (Two, OUTSIDE, INSIDE)] {
        let single = write(version, &[X, Face(0)]);
        let turned = write(version, &[X, Face(0), Complement(1)]);
        for d in 0..=3 {
            let maps = [&single, &turned].map(|sheet| map_of(sheet, &root(-4, 3, d)).unwrap());
            assert_eq!(
                maps.each_ref().map(|map| leaves(map)),
                [[0, 2, 1], [0, 3, 1]]
            );
            let at = |x| {
                let point = [x, 0, 0];
                let inside = lookup(&single, &maps[0], point);
                let outside = lookup(&turned, &maps[1], point);
                [inside, outside].map(|reply| reply.number as usize)
            };
            assert_eq!(at(-1), [INSIDE, OUTSIDE]);
            assert_eq!(at(0), [on_face, off_face]);
            assert_eq!(at(1), [OUTSIDE, INSIDE]);
        }
    }
}

/// A face of the number 0: everywhere in version 1, nowhere in version 2.
#[test]
fn a_face_of_0() {
    for (version, class) in [(One, 1), (Two, 0)] {
        let sheet = write(version, &[Constant(0), Face(0)]);
        let map = map_of(&sheet, &root(0, 2, 2)).unwrap();
        assert_eq!(leaves(&map), [0, class, 0]);
    }
}

#[test]
fn versions_1_and_2_are_read() {
    is(check(&strict()), 0, 8);
    is(check(&hex("00 01 02")), 5, 0);
    is(check(&hex("00 02 02 00")), 3, 3);
    is(check(&hex("00 04 02 02 10 00")), 4, 0);
    let [one, two] = [s(), strict()].map(|sheet| read(&sheet).unwrap());
    assert_eq!([one.version, two.version], VERSIONS);
    assert_eq!(one.records, two.records);
}

#[test]
fn the_limits_do_not_depend_on_the_version() {
    let passed = [X, Square(0), Product(1, 0), Sum(2, 0), Face(3)];
    for version in VERSIONS {
        let sheet = write(version, &passed);
        let refused = |root| map_of(&sheet, &root).unwrap_err();
        is(refused(root(1048575, 0, 0)), 7, 7);
        is(refused(root(1048576, 0, 0)), 6, 0);
    }
}
