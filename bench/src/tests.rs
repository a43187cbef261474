//! Tests of the programs that build, refine and look up: the plain ones and the library give the same.
use crate::baseline::{self, Root};
use crate::drawing::Sheet;
use crate::records::Refusal;
use crate::sheets::{self, Case};
use crate::{buildings, carrying, library, scan};

/// The map of a sheet, or the refusal, which all three programs must give.
fn build(sheet: &[u8], root: &Root) -> Result<Vec<u8>, Refusal> {
    let map = baseline::build(sheet, root).map(|map| map.bytes);
    let carried = carrying::build(sheet, root).map(|map| map.bytes);
    assert!(carried == map, "what is carried down differs");
    let mut out = vec![0; map.as_ref().map_or(0, Vec::len)];
    let proved = library::build(sheet, root, &mut out).map(|length| out[..length].to_vec());
    assert!(proved == map, "the library's map differs");
    map
}

/// The map that one is refined to, or the refusal, which both programs must give.
fn refine(sheet: &[u8], map: &[u8], d: u8) -> Result<Vec<u8>, Refusal> {
    let new = carrying::refine(sheet, map, d).map(|map| map.bytes);
    let mut out = vec![0; new.as_ref().map_or(0, Vec::len)];
    let proved = library::refine(sheet, map, d, &mut out).map(|length| out[..length].to_vec());
    assert!(proved == new, "the library's refined map differs");
    new
}

/// What both programs that look up answer.
fn lookup(sheet: &[u8], map: &[u8], point: [i32; 3]) -> Result<u64, Refusal> {
    let answer = scan::lookup(sheet, map, point);
    assert_eq!(library::lookup(sheet, map, point), answer);
    answer
}

/// Document 01's step room.
#[test]
fn step_room() {
    let sheet = include_bytes!("../../examples/step-room.sheet");
    let root = |d| Root {
        corner: [0, 0, 0],
        k: 2,
        d,
    };
    let four = [[1, 1, 0], [1, 2, 5], [1, 2, 6], [1, 4, 0]].concat();
    let mut want = vec![0, 0, 0, 0x27, 1];
    want.extend([0; 12]);
    want.extend([2, 1]);
    want.extend([&four[..], &four[..]].concat());
    assert_eq!(build(sheet, &root(1)), Ok(want));
    assert_eq!(build(sheet, &root(0)).map(|map| map.len()), Ok(22));
    assert_eq!(build(sheet, &root(2)).map(|map| map.len()), Ok(85));
    assert_eq!(build(sheet, &root(3)), Err((6, 0)));
    assert_eq!(build(&[0, 1, 1], &root(0)), Err((5, 0)));
    assert_eq!(build(&[0, 0], &root(0)), Err((1, 0)));
    let [zero, one, two] = [0, 1, 2].map(|d| build(sheet, &root(d)).unwrap());
    assert_eq!(refine(sheet, &zero, 2), Ok(two.clone()));
    assert_eq!(refine(sheet, &one, 2), Ok(two));
    assert_eq!(refine(sheet, &one, 1), Ok(one.clone()));
    assert_eq!(refine(sheet, &one, 0), Err((6, 0)));
    assert_eq!(refine(sheet, &one, 3), Err((6, 0)));
    assert_eq!(refine(sheet, &one[..42], 0), Err((9, 0)));
}

/// Gray leaves that the rules colour otherwise, and others that they would split.
#[test]
fn maps_of_other_leaves() {
    let sheet = include_bytes!("../../examples/step-room.sheet");
    let header = |d, leaves: usize| {
        let following = 15 + 3 * leaves as u8;
        let mut map = vec![0, 0, 0, following, 1];
        map.extend([0; 12]);
        map.extend([2, d]);
        map
    };
    let gray = [header(1, 8), [1, 4, 0].repeat(8)].concat();
    let (corner, k) = ([0, 0, 0], 2);
    for d in [1, 2] {
        assert_eq!(
            refine(sheet, &gray, d),
            build(sheet, &Root { corner, k, d })
        );
    }
    let white = [header(0, 1), vec![0, 0, 0]].concat();
    assert_eq!(
        refine(sheet, &white, 2).map(|map| map[19..].to_vec()),
        Ok(vec![0, 0, 0])
    );
    let half = [[1, 3, 6], [1, 4, 0], [1, 0, 0], [1, 0, 0]].concat();
    let mixed = [header(1, 8), half.repeat(2)].concat();
    let left = [[1, 3, 6], [1, 2, 5], [1, 0, 0], [1, 0, 0]].concat();
    assert_eq!(
        refine(sheet, &mixed, 2).map(|map| map[19..].to_vec()),
        Ok(left.repeat(2))
    );
}

/// What a face of each version gives: the class of the only leaf, over x from low to low + 2, and
/// whether each point of it along x is inside.
#[test]
fn faces_of_both_versions() {
    for (version, low, class, inside) in [
        (1, -3, 1, [1, 1]),
        (1, -2, 1, [1, 1]),
        (1, -1, 2, [1, 1]),
        (1, 0, 2, [1, 0]),
        (1, 1, 0, [0, 0]),
        (2, -3, 1, [1, 1]),
        (2, -2, 2, [1, 1]),
        (2, -1, 2, [1, 0]),
        (2, 0, 0, [0, 0]),
        (2, 1, 0, [0, 0]),
    ] {
        let (corner, k, d) = ([low, 0, 0], 1, 0);
        let root = Root { corner, k, d };
        let mut s = Sheet::default();
        let x = s.coordinate(0);
        s.face(x);
        let sheet = s.finish_as(version);
        let map = build(&sheet, &root).expect("the sheet is good");
        assert_eq!(map[20], class);
        for (x, inside) in (low..).zip(inside) {
            assert_eq!(lookup(&sheet, &map, [x, 0, 0]), Ok(inside));
        }
    }
}

#[test]
fn other_versions_are_refused() {
    for version in [0, 3, 255] {
        let sheet = Sheet::default().finish_as(version);
        let (corner, k, d) = ([0, 0, 0], 0, 0);
        assert_eq!(build(&sheet, &Root { corner, k, d }), Err((2, 0)));
    }
}

/// A sheet over x and y from 0 to 1: record 3 is 2^60, record 5 is -2^60, and record 8 has the bounds [-2^60, 2^60].
fn at_the_limit() -> Sheet {
    let mut s = Sheet::default();
    let (x, y) = (s.coordinate(0), s.coordinate(1));
    let half = s.constant(1 << 30);
    let limit = s.record(8, &[half]);
    let zero = s.constant(0);
    let below = s.difference(zero, limit);
    let (up, down) = (s.product(x, limit), s.product(y, below));
    s.sum(up, down);
    s
}

/// Which end of record 9 passes the limit.
#[test]
fn the_end_past_the_limit() {
    let root = Root {
        corner: [0, 0, 0],
        k: 0,
        d: 0,
    };
    let gray = [
        0, 0, 0, 18, 1, 0, 0, 0, 0, 0, 0, 0, 0, 0, 0, 0, 0, 0, 0, 0, 4, 0,
    ];
    for (kind, operands, number) in [
        (5, &[3, 0][..], 19),
        (5, &[3, 2], 18),
        (5, &[8, 8], 18),
        (6, &[5, 0], 18),
        (6, &[3, 7], 19),
        (7, &[6, 5], 18),
        (7, &[7, 5], 19),
        (7, &[8, 8], 18),
        (8, &[5], 18),
        (8, &[6], 19),
        (8, &[8], 19),
    ] {
        let mut s = at_the_limit();
        let last = s.record(kind, operands);
        s.face(last);
        let (sheet, refused) = (s.finish(), (7, number));
        assert_eq!(build(&sheet, &root), Err(refused));
        assert_eq!(lookup(&sheet, &gray, [0, 0, 0]), Err(refused));
    }
}

/// What both (kind 17) and either (kind 18) of faces give: the class and face of the only leaf.
#[test]
fn a_face_mentioned_twice() {
    let root = Root {
        corner: [0, 0, 0],
        k: 1,
        d: 0,
    };
    let mut s = Sheet::default();
    let (x, y) = (s.coordinate(0), s.coordinate(1));
    let (f, g) = (s.at_most(x, 1), s.at_most(y, 1));
    let (other_f, other_g) = (s.complement(f), s.complement(g));
    for (kind, p, q, leaf) in [
        (17, f, f, [2, f]),
        (17, other_f, other_f, [3, f]),
        (17, f, other_f, [0, 0]),
        (17, other_f, f, [0, 0]),
        (17, f, g, [4, 0]),
        (17, f, other_g, [4, 0]),
        (17, other_g, other_f, [4, 0]),
        (18, g, g, [2, g]),
        (18, other_g, other_g, [3, g]),
        (18, g, other_g, [1, 0]),
        (18, other_g, g, [1, 0]),
        (18, g, f, [4, 0]),
        (18, other_f, g, [4, 0]),
        (18, other_f, other_g, [4, 0]),
    ] {
        let mut s = s.clone();
        s.record(kind, &[p, q]);
        let map = build(&s.finish(), &root).expect("the sheet is good");
        assert_eq!(map[20..], leaf);
    }
}

/// Every sheet that is timed, at small depths.
#[test]
fn maps_of_the_timed_sheets() {
    let buildings = [50, 150, 256].map(|records| {
        let d = 6;
        [buildings::rooms(records, d), buildings::tower(records, d)]
    });
    let towers = [16, 32, 64, 128].map(|records| buildings::tower(records, 6));
    let cases = buildings.into_iter().flatten().chain(towers);
    let cases = cases.chain(sheets::corridors()).chain(sheets::vaulted());
    let cases = cases.chain([sheets::steep(), sheets::point()]);
    for Case { sheet, root, .. } in cases {
        let depths = [0, 1, root.d.min(6)];
        let maps = depths.map(|d| {
            let map = build(&sheet, &Root { d, ..root }).expect("the sheet is good");
            assert_eq!(map[18], d);
            map
        });
        for map in &maps {
            let refined = refine(&sheet, map, depths[2]).expect("the map is good");
            assert!(refined == maps[2], "it is not the map built afresh");
        }
    }
}

/// Records that are read by several others, by one twice, or by none, in chains of both, either and complement, so that a twin has a twin.
/// The sheets are version 1 and version 2, with and without an x, over a root on both sides of the origin.
#[test]
fn shared_and_unread_records() {
    for version in [1, 2] {
        for first_axis in [0, 1] {
            let mut s = Sheet::default();
            let axes = [first_axis, 1, 2].map(|axis| s.coordinate(axis));
            s.product(axes[0], axes[1]);
            let planes = [-9, -5, 0, 3, 7].map(|at| axes.map(|axis| s.at_most(axis, at)));
            let mut solid = planes[2][0];
            for faces in planes {
                let [p, q, r] = faces;
                let (inner, outer) = (s.both(p, q), s.either(solid, r));
                let turned = s.complement(inner);
                s.both(turned, turned);
                solid = s.both(outer, turned);
                solid = s.either(solid, inner);
            }
            let sheet = s.finish_as(version);
            for d in 0..=4 {
                let (corner, k) = ([-8, -8, -8], 4);
                let map = build(&sheet, &Root { corner, k, d }).expect("the sheet is good");
                assert!(d == 0 || map.len() > 22);
            }
        }
    }
}
