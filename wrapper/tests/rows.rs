//! Document 01's rows through the safe calls: the step room, its lookups, and refusals of all calls.
use zone::{build, build_vec, check, lookup, open, refine, refine_vec, Answer, End, Refusal, Root};

const SHEET: &[u8] = include_bytes!("../../examples/step-room.sheet");

fn root(d: u8) -> Root {
    Root {
        corner: [0, 0, 0],
        k: 2,
        d,
    }
}

/// Document 01's map of the step room at depth 1.
fn map() -> Vec<u8> {
    let four = [1, 1, 0, 1, 2, 5, 1, 2, 6, 1, 4, 0];
    let header = [0, 0, 0, 0x27, 1, 0, 0, 0, 0, 0, 0, 0, 0, 0, 0, 0, 0, 2, 1];
    [&header[..], &four, &four].concat()
}

/// Records x, its square, that times x, x added to that, and a face. Over x from 1048575 to 1048576 record 2 reaches 2^60, and record 3 passes it.
const PASSED: [u8; 19] = [0, 17, 1, 1, 2, 2, 8, 0, 3, 7, 1, 0, 3, 5, 2, 0, 2, 16, 3];
const AT_THE_END: Root = Root {
    corner: [1048575, 0, 0],
    k: 0,
    d: 0,
};
/// Document 01's row for it: 7 with 7.
const HIGH_END: Refusal = Refusal::OverRoot {
    record: 3,
    end: End::High,
};

/// The step room as a version 2 sheet: x less than 2 and y less than 2.
fn strict() -> Vec<u8> {
    let mut sheet = SHEET.to_vec();
    sheet[2] = 2;
    sheet
}

/// The map with one byte changed.
fn damaged(at: usize, byte: u8) -> Vec<u8> {
    let mut bytes = map();
    bytes[at] = byte;
    bytes
}

#[test]
fn the_step_room_is_a_good_sheet() {
    assert_eq!(check(SHEET), Ok(8));
}

#[test]
fn the_step_room_is_built_at_the_start_of_the_buffer() {
    let mut out = [7; 50];
    assert_eq!(build(SHEET, root(1), &mut out), Ok(43));
    assert_eq!(out[..43], map());
    assert_eq!(out[43..], [7; 7]);
}

#[test]
fn a_buffer_that_is_a_byte_short_is_told_the_length_and_left_alone() {
    let mut out = [7; 42];
    assert_eq!(
        build(SHEET, root(1), &mut out),
        Err(Refusal::Short { needed: 43 })
    );
    assert_eq!(out, [7; 42]);
}

#[test]
fn an_empty_buffer_is_told_the_length() {
    assert_eq!(
        build(SHEET, root(2), &mut []),
        Err(Refusal::Short { needed: 85 })
    );
}

#[test]
fn a_vector_has_the_length_of_the_map() {
    assert_eq!(build_vec(SHEET, root(1)), Ok(map()));
    let deeper = build_vec(SHEET, root(2)).unwrap();
    assert_eq!((deeper.len(), open(&deeper)), (85, Ok(22)));
}

#[test]
fn a_vector_is_refused_as_a_buffer_is() {
    assert_eq!(build_vec(&[0, 1, 3], root(1)), Err(Refusal::SheetVersion));
    assert_eq!(build_vec(SHEET, root(3)), Err(Refusal::Limits));
    assert_eq!(build_vec(&PASSED, AT_THE_END), Err(HIGH_END));
}

#[test]
fn calls_at_the_same_time_return_the_same() {
    let map = map();
    std::thread::scope(|scope| {
        for _ in 0..8 {
            scope.spawn(|| {
                for _ in 0..1000 {
                    assert_eq!(check(SHEET), Ok(8));
                    assert_eq!(build_vec(SHEET, root(1)).as_ref(), Ok(&map));
                    assert_eq!(refine_vec(SHEET, &map, 1).as_ref(), Ok(&map));
                    assert_eq!(open(&map), Ok(8));
                    assert_eq!(lookup(SHEET, &map, [2, 0, 0]), Ok(Answer::Inside));
                }
            });
        }
    });
}

#[test]
fn a_map_that_was_built_opens() {
    assert_eq!(open(&map()), Ok(8));
    let mut out = [7; 85];
    assert_eq!(build(SHEET, root(2), &mut out), Ok(85));
    assert_eq!(open(&out), Ok(22));
}

#[test]
fn points_of_the_step_room() {
    let at = |point| lookup(SHEET, &map(), point);
    assert_eq!(at([2, 0, 0]), Ok(Answer::Inside));
    assert_eq!(at([3, 0, 0]), Ok(Answer::Outside));
    assert_eq!(at([2, 2, 0]), Ok(Answer::Undecided));
    assert_eq!(at([4, 0, 0]), Err(Refusal::NotInRoot));
}

#[test]
fn the_step_room_as_version_2() {
    assert_eq!(check(&strict()), Ok(8));
    // At depth 1 the cube at the corner is gray, and the others are outside: their bounds begin at 0.
    let four = [1, 4, 0, 1, 0, 0, 1, 0, 0, 1, 0, 0];
    let map = build_vec(&strict(), root(1)).unwrap();
    assert_eq!(map[19..], [four, four].concat());
    let map = build_vec(&strict(), root(2)).unwrap();
    assert_eq!((map.len(), open(&map)), (85, Ok(22)));
    let at = |point| lookup(&strict(), &map, point);
    assert_eq!(at([1, 0, 0]), Ok(Answer::Inside));
    assert_eq!(at([2, 0, 0]), Ok(Answer::Outside));
    assert_eq!(at([1, 1, 0]), Ok(Answer::Undecided));
    assert_eq!(at([4, 0, 0]), Err(Refusal::NotInRoot));
}

#[test]
fn a_leaf_is_answered_by_the_sheet_that_is_lent() {
    for (point, in_1, in_2) in [
        ([0, 0, 0], Answer::Inside, Answer::Inside),
        ([2, 0, 0], Answer::Inside, Answer::Outside),
        ([3, 0, 0], Answer::Outside, Answer::Outside),
    ] {
        assert_eq!(lookup(SHEET, &map(), point), Ok(in_1));
        assert_eq!(lookup(&strict(), &map(), point), Ok(in_2));
    }
}

#[test]
fn bad_sheets_are_refused_alike_by_all_calls() {
    for (sheet, why) in [
        (&[0, 0][..], Refusal::SheetLength),
        (&[0, 1, 0], Refusal::SheetVersion),
        (&[0, 1, 3], Refusal::SheetVersion),
        (&[0, 1, 255], Refusal::SheetVersion),
        (&[0, 3, 1, 1, 9], Refusal::Record { offset: 3 }),
        (&[0, 3, 2, 1, 9], Refusal::Record { offset: 3 }),
        (&[0, 4, 1, 2, 8, 0], Refusal::Operand { record: 0 }),
        (&[0, 1, 1], Refusal::Solid { records: 0 }),
        (&[0, 1, 2], Refusal::Solid { records: 0 }),
        (&[0, 3, 1, 1, 2], Refusal::Solid { records: 1 }),
    ] {
        assert_eq!(check(sheet), Err(why));
        let mut out = [7; 43];
        assert_eq!(build(sheet, root(1), &mut out), Err(why));
        assert_eq!(refine(sheet, &map(), 1, &mut out), Err(why));
        assert_eq!(out, [7; 43]);
        assert_eq!(lookup(sheet, &map(), [0, 0, 0]), Err(why));
    }
}

#[test]
fn a_root_or_depth_out_of_limits_is_refused() {
    for (k, d) in [(2, 3), (17, 0), (255, 255), (16, 11)] {
        let corner = [0, 0, 0];
        assert_eq!(
            build(SHEET, Root { corner, k, d }, &mut []),
            Err(Refusal::Limits)
        );
    }
    let corner = [i32::MAX, 0, 0];
    assert_eq!(
        build(SHEET, Root { corner, k: 2, d: 1 }, &mut []),
        Err(Refusal::Limits)
    );
}

#[test]
fn the_limit_of_bounds() {
    // Without record 3, and a face of record 2.
    let reached = [0, 13, 1, 1, 2, 2, 8, 0, 3, 7, 1, 0, 2, 16, 2];
    assert_eq!(build(&reached, AT_THE_END, &mut [0; 22]), Ok(22));
    assert_eq!(build(&PASSED, AT_THE_END, &mut [0; 22]), Err(HIGH_END));
}

#[test]
fn a_lookup_and_a_build_say_which_end_passes_the_limit() {
    let map = build_vec(SHEET, AT_THE_END).unwrap();
    let refused = |sheet: &[u8], why| {
        assert_eq!(build(sheet, AT_THE_END, &mut []), Err(why));
        assert_eq!(refine(sheet, &map, 0, &mut []), Err(why));
        assert_eq!(lookup(sheet, &map, [1048575, 0, 0]), Err(why));
    };
    refused(&PASSED, HIGH_END);
    let low_end = |record| Refusal::OverRoot {
        record,
        end: End::Low,
    };
    // The square of -2^31, which is above 2^60 all over the root.
    refused(
        &[0, 13, 1, 5, 1, 128, 0, 0, 0, 2, 8, 0, 2, 16, 1],
        low_end(1),
    );
    // Record 2 again, and y. y less record 2 reaches -2^60, and less y once more passes it, at the low end alone.
    let below = [
        0, 23, 1, 1, 2, 2, 8, 0, 3, 7, 1, 0, 1, 3, 3, 6, 3, 2, 3, 6, 4, 3, 2, 16, 5,
    ];
    refused(&below, low_end(5));
}

#[test]
fn damaged_maps_are_refused_at_their_first_fault() {
    let refused = |map: &[u8], offset| {
        assert_eq!(open(map), Err(Refusal::Map { offset }));
        let found = lookup(SHEET, map, [0, 0, 0]);
        assert_eq!(found, Err(Refusal::Map { offset }));
        // The map is tested before the depth.
        for d in [0, 1, 255] {
            let refined = refine(SHEET, map, d, &mut []);
            assert_eq!(refined, Err(Refusal::Map { offset }));
        }
    };
    refused(&[], 0);
    refused(&[map(), vec![0]].concat(), 0);
    refused(&damaged(3, 0x28), 0);
    refused(&damaged(4, 2), 4);
    refused(&damaged(17, 17), 5);
    refused(&damaged(18, 3), 5);
    // The second leaf has a level past the depth, and an unknown class.
    refused(&damaged(22, 2), 22);
    refused(&damaged(23, 5), 22);
    // The first leaf is black and names a face, and is the whole root, so that none can follow.
    refused(&damaged(21, 5), 19);
    refused(&damaged(19, 0), 22);
    // Seven leaves stop short.
    let mut short = damaged(3, 0x24);
    short.truncate(40);
    refused(&short, 40);
}

#[test]
fn only_a_lookup_asks_whether_a_leaf_names_a_face() {
    let no_face = damaged(24, 7);
    assert_eq!(open(&no_face), Ok(8));
    let refused = Refusal::Map { offset: 22 };
    assert_eq!(lookup(SHEET, &no_face, [0, 0, 0]), Err(refused));
    assert_eq!(refine(SHEET, &no_face, 1, &mut []), Err(refused));
}

#[test]
fn the_step_room_is_refined_at_the_start_of_the_buffer() {
    let afresh = build_vec(SHEET, root(2)).unwrap();
    let mut out = [7; 90];
    assert_eq!(refine(SHEET, &map(), 2, &mut out), Ok(85));
    assert_eq!(out[..85], afresh);
    assert_eq!(out[85..], [7; 5]);
    assert_eq!(refine_vec(SHEET, &map(), 2), Ok(afresh));
    assert_eq!(refine_vec(SHEET, &map(), 1), Ok(map()));
}

/// A room with a round bay, refined at once and in two steps.
#[test]
fn a_room_refined_is_the_room_built_afresh() {
    let sheet = include_bytes!("../../examples/round-bay.sheet");
    let (corner, k) = ([0, 0, 0], 11);
    let [coarse, afresh] = [5, 7].map(|d| build_vec(sheet, Root { corner, k, d }).unwrap());
    assert_eq!([coarse.len(), afresh.len()], [4600, 19972]);
    assert_eq!(refine_vec(sheet, &coarse, 7).as_ref(), Ok(&afresh));
    let half_way = refine_vec(sheet, &coarse, 6).unwrap();
    assert_eq!(refine_vec(sheet, &half_way, 7), Ok(afresh));
}

#[test]
fn a_buffer_to_refine_into_is_told_the_length_and_left_alone() {
    let mut out = [7; 84];
    let short = Refusal::Short { needed: 85 };
    assert_eq!(refine(SHEET, &map(), 2, &mut out), Err(short));
    assert_eq!(out, [7; 84]);
}

#[test]
fn a_smaller_or_illegal_depth_is_refused() {
    for d in [0, 3, 11, 255] {
        assert_eq!(refine_vec(SHEET, &map(), d), Err(Refusal::Limits));
    }
    let coarse = build_vec(&PASSED, root(0)).unwrap();
    assert_eq!(refine_vec(&PASSED, &coarse, 2).map(|map| map.len()), Ok(22));
}

/// The first leaf, which the rules call black, is white here and stands; the second is gray, and the rules call it terminal.
#[test]
fn a_map_of_other_leaves() {
    let mut other = damaged(20, 0);
    other[23..25].copy_from_slice(&[4, 0]);
    let refined = refine_vec(SHEET, &other, 1).unwrap();
    assert_eq!(refined, damaged(20, 0));
}

#[test]
fn a_refusal_has_the_code_and_number_of_document_01() {
    let why = build(SHEET, root(1), &mut [0; 42]).unwrap_err();
    assert_eq!((why.code(), why.number()), (8, 43));
    assert_eq!(why.to_string(), "the map needs a buffer of 43 bytes");
    let why = open(&damaged(23, 5)).unwrap_err();
    assert_eq!((why.code(), why.number()), (9, 22));
    assert_eq!(
        why.to_string(),
        "the map's leaf at byte 22 is bad, by itself or for the sheet of a lookup, or the leaves stop short there"
    );
    let why = refine(SHEET, &map(), 0, &mut []).unwrap_err();
    assert_eq!((why.code(), why.number()), (6, 0));
    assert_eq!(
        why.to_string(),
        "the root or the depth is out of limits"
    );
    let why = check(&[0, 1, 3]).unwrap_err();
    assert_eq!((why.code(), why.number()), (2, 0));
    assert_eq!(why.to_string(), "the sheet's version is neither 1 nor 2");
    assert_eq!((HIGH_END.code(), HIGH_END.number()), (7, 7));
    assert_eq!(
        HIGH_END.to_string(),
        "the high end of record 3's bounds over the root is outside -2^60 to 2^60: take a smaller root, or one whose far side is nearer to 0"
    );
}
