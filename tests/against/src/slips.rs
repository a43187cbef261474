//! Wrong rules that look sensible. The comparison has to notice each of them: a test that cannot fail
//! shows nothing.

use crate::case::{Case, Outcome};
use crate::group::{Group, Make};
use crate::wrong_builds::*;
use crate::wrong_ends::*;
use crate::wrong_lookups::*;
use crate::wrong_mentions::*;
use crate::wrong_reads::*;
use crate::wrong_versions::*;
use crate::{alone, builds, carried, ends, every_byte, lookups, products, refines};
use crate::{wrong_carried, wrong_refines, wrong_refusals, wrong_rewrites};
use paper::before_03;

/// A wrong rule: its description, the cases that show it, and the oracle that follows it.
pub struct Slip {
    pub name: String,
    pub group: Group,
    pub oracle: Wrong,
}

pub type Wrong = fn(&Case) -> Outcome;

const CASES: u64 = 6_000;

/// Build 0 has one of the largest maps, which no wrong rule needs.
const BUILDING: Make = |number, random| builds::any(number + 1, random);
const MULTIPLYING: Make = products::any;
const REFINING: Make = refines::usual;
const LOOKING: Make = lookups::any;
const CHECKING: Make = alone::check;
const OPENING: Make = alone::open;
/// Sheets and maps for all calls that take one.
const SHEETS: Make = every_byte::damaged_sheet;
const MAPS: Make = every_byte::damaged_map;

const OF_BUILDING: [(&str, Make, Wrong); 17] = [
    ("corners sampled", BUILDING, |c| coloured(c, &corners)),
    ("version 1: [0, 2] is Out", BUILDING, |c| {
        coloured(c, &zero_out)
    }),
    ("version 1: [-2, 0] is undecided", BUILDING, |c| {
        coloured(c, &zero_undecided)
    }),
    ("a square as a product", BUILDING, square_as_product),
    ("a product without its signs", MULTIPLYING, signs_ignored),
    ("two of four products left out", MULTIPLYING, two_left_out),
    ("all faces of the sheet counted", BUILDING, |c| {
        coloured(c, &all_faces)
    }),
    ("2^60 itself refused", BUILDING, limit_refused),
    ("sum and product exchanged", BUILDING, kinds_exchanged),
    ("z reads y", BUILDING, z_reads_y),
    ("either never passes a state on", BUILDING, |c| {
        coloured(c, &either_not_passed_on)
    }),
    ("a complement changes nothing", BUILDING, |c| {
        coloured(c, &complement_ignored)
    }),
    ("children z first", BUILDING, z_first),
    (
        "Y and Z of the root exchanged",
        BUILDING,
        low_corner_exchanged,
    ),
    ("k at most 15", BUILDING, k_at_most_15),
    ("later bytes cleared", BUILDING, later_cleared),
    ("a short buffer filled", BUILDING, short_filled),
];

/// Of both and either of two states of one face each.
const OF_MENTIONS: [(&str, Make, Wrong); 10] = [
    ("a face mentioned twice is Mixed", BUILDING, |c| {
        coloured(c, &before_03::colour)
    }),
    ("different faces give the first", BUILDING, |c| {
        coloured(c, &first_of_two)
    }),
    (
        "both of a face and its complement is Mixed",
        BUILDING,
        |c| coloured(c, &both_of_complement_mixed),
    ),
    ("both of a face and its complement is In", BUILDING, |c| {
        coloured(c, &both_of_complement_in)
    }),
    (
        "either of a face and its complement is Mixed",
        BUILDING,
        |c| coloured(c, &either_of_complement_mixed),
    ),
    (
        "either of a face and its complement is Out",
        BUILDING,
        |c| coloured(c, &either_of_complement_out),
    ),
    (
        "a complement is decided only after its face",
        BUILDING,
        |c| coloured(c, &face_first),
    ),
    ("Comp(f) with Comp(f) is Single(f)", BUILDING, |c| {
        coloured(c, &comp_as_single)
    }),
    ("mentions compared by record, not by face", BUILDING, |c| {
        coloured(c, &by_record)
    }),
    ("two faces over one operand are one", BUILDING, |c| {
        coloured(c, &by_operand)
    }),
];

/// Of faces that exclude themselves.
const OF_STRICT_FACES: [(&str, Make, Wrong); 5] = [
    ("version 2: Out at a > 0", BUILDING, |c| {
        coloured(c, &zero_not_out)
    }),
    ("version 2: In at b <= 0", BUILDING, |c| {
        coloured(c, &zero_in)
    }),
    ("version 2: [0, 0] is In", BUILDING, |c| {
        coloured(c, &only_zero_in)
    }),
    ("version 2: [0, 0] is undecided", BUILDING, |c| {
        coloured(c, &only_zero_single)
    }),
    (
        "version 2: a point on a face is on neither side",
        LOOKING,
        on_neither_side,
    ),
];

const OF_SHEETS: [(&str, Make, Wrong); 6] = [
    ("offsets from the first record", SHEETS, offsets_from_record),
    ("operands tested with the records", SHEETS, operands_early),
    ("5 always with 0", SHEETS, solid_without_count),
    ("checking: 5 always with 0", CHECKING, solid_without_count),
    ("checking: the last record's number", CHECKING, last_record),
    ("checking: a face of a face", CHECKING, face_of_face),
];

const OF_OPENING: [(&str, Make, Wrong); 9] = [
    (
        "opening: terminal leaves need a sheet",
        OPENING,
        faces_demanded,
    ),
    ("opening: leaves by the length", OPENING, leaves_by_length),
    ("opening: gray above level d", OPENING, gray_above_depth),
    ("opening: 4 and 5 exchanged", OPENING, offsets_exchanged),
    ("opening: root before version", OPENING, root_before_version),
    (
        "opening: leaves past the last place",
        OPENING,
        stops_when_full,
    ),
    ("opening: k at most 15", OPENING, map_k_at_most_15),
    (
        "opening: the length may be less than the slice",
        OPENING,
        map_prefix,
    ),
    (
        "opening: no leaves is a bad length",
        OPENING,
        no_leaves_length,
    ),
];

const OF_LOOKING: [(&str, Make, Wrong); 8] = [
    ("the high planes are in the root", LOOKING, high_planes),
    ("class 3 not turned over", LOOKING, not_turned),
    ("faces tested after all leaves", LOOKING, faces_last),
    (
        "a map's length may be less than the slice",
        LOOKING,
        map_prefix,
    ),
    ("10 before 7", LOOKING, point_first),
    ("no leaves is a bad length", LOOKING, no_leaves_length),
    ("gray above level d", MAPS, gray_above_depth),
    (
        "Y and Z of the map exchanged",
        LOOKING,
        map_corner_exchanged,
    ),
];

/// Each is tried on builds, on refines and on lookups.
const OF_MEANINGS: [(&str, Wrong); 3] = [
    ("strict in both versions", strict_in_both),
    ("strict in no version", strict_in_none),
    ("the versions exchanged", exchanged),
];

const BY_MEANING: [(&str, Make); 3] = [
    ("building", BUILDING),
    ("refining", REFINING),
    ("looking up", LOOKING),
];

/// Each is tried on checks, on builds, on refines and on lookups.
const OF_VERSIONS: [(&str, Wrong); 5] = [
    ("version 3 accepted", version_3_read),
    ("version 0 accepted", version_0_read),
    ("version 2 refused", version_2_refused),
    ("the version's lowest bits", lowest_bits),
    ("the version from byte 1", from_byte_1),
];

const BY_VERSION: [(&str, Make); 4] = [
    ("checking", CHECKING),
    ("building", |number, random| {
        every_byte::damaged_sheet(4 * number, random)
    }),
    ("looking up", |number, random| {
        every_byte::damaged_sheet(4 * number + 1, random)
    }),
    ("refining", |number, random| {
        every_byte::damaged_sheet(4 * number + 2, random)
    }),
];

/// Each is tried on builds, on refines and on lookups.
const OF_ENDS: [(&str, Wrong); 7] = [
    ("the high end first", high_end_first),
    ("a low end above 2^60 is the high end's", low_end_only_below),
    ("a record's number not doubled", not_doubled),
    ("a record's number without its end", without_end),
    ("a low end before any high end", low_end_of_any),
    ("the first operand's end", end_of_first_operand),
    ("the last operand's end", end_of_last_operand),
];

const BY_REFINING: [(&str, Make); 1] = [("refining", REFINING)];

const CARRYING: [(&str, Make); 2] = [
    ("carried", carried::any),
    ("refining, carried", refines::carrying),
];

const GIVING_7: [(&str, Make); 3] = [
    ("building, 7", ends::build),
    ("refining, 7", ends::refine),
    ("looking up, 7", ends::lookup),
];

/// Each of some rules on the cases of each of some calls.
fn on_each(
    calls: &'static [(&'static str, Make)],
    rules: &'static [(&'static str, Wrong)],
) -> impl Iterator<Item = (String, Make, Wrong)> {
    calls.iter().flat_map(move |&(call, make)| {
        let named = move |&(rule, oracle)| (format!("{call}: {rule}"), make, oracle);
        rules.iter().map(named)
    })
}

pub fn slips() -> impl Iterator<Item = Slip> {
    let of_reading = OF_SHEETS.into_iter().chain(OF_OPENING);
    let of_building = OF_BUILDING.into_iter().chain(OF_MENTIONS);
    let of_building = of_building.chain(OF_STRICT_FACES);
    let all = of_building.chain(of_reading).chain(OF_LOOKING);
    let all = all.map(|(name, make, oracle)| (name.to_string(), make, oracle));
    let all = all
        .chain(on_each(&BY_MEANING, &OF_MEANINGS))
        .chain(on_each(&BY_VERSION, &OF_VERSIONS))
        .chain(on_each(&GIVING_7, &OF_ENDS))
        .chain(on_each(&BY_REFINING, &wrong_refines::ALL))
        .chain(on_each(&BY_REFINING, &wrong_rewrites::ALL))
        .chain(on_each(&BY_REFINING, &wrong_refusals::ALL))
        .chain(on_each(&CARRYING, &wrong_carried::ALL));
    all.map(|(name, make, oracle)| Slip {
        name,
        group: Group {
            name: "wrong rules",
            make,
            cases: CASES,
        },
        oracle,
    })
}
