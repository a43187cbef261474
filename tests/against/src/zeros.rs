//! Faces whose operand is 0: at an end of its bounds over a cube, or at a point. Only there can the versions of a sheet
//! differ (request 2026-07).

use crate::case::Lookup;
use crate::first_cubes::{names, show};
use paper::bounds::{self, Interval};
use paper::colour::{TERMINAL, TERMINAL_COMPLEMENT};
use paper::fractions::{Point, Values};
use paper::lookup::{self, Opened};
use paper::root::{Cube, Root};
use paper::sheet::{Record, Sheet, Version};

/// First those of version 1, then those of version 2, in the same order.
pub const OF_BUILDS: [&str; 6] = [
    "face, version 1: bounds that end at 0",
    "face, version 1: bounds from 0 to 0",
    "face, version 1: bounds that begin at 0",
    "face, version 2: bounds that end at 0",
    "face, version 2: bounds from 0 to 0",
    "face, version 2: bounds that begin at 0",
];

/// Likewise, by the version of the sheet that is lent with the map.
pub const OF_LOOKUPS: [&str; 4] = [
    "point, version 1: on the face of its leaf, class 2",
    "point, version 1: on the face of its leaf, class 3",
    "point, version 2: on the face of its leaf, class 2",
    "point, version 2: on the face of its leaf, class 3",
];

/// Where the names of a version begin.
fn first(version: Version, all: &[&str]) -> usize {
    match version {
        Version::One => 0,
        Version::Two => all.len() / 2,
    }
}

/// Those of a build within the limit, in the cubes of its first levels.
pub fn of_build(sheet: &Sheet, root: &Root) -> Vec<&'static str> {
    let first = first(sheet.version, &OF_BUILDS);
    let mut met = [false; OF_BUILDS.len()];
    show(sheet, root, &mut |bounds, _| {
        let faces = sheet.records.iter().filter_map(operand);
        for which in faces.filter_map(|a| at_an_end(bounds[a]?)) {
            met[first + which] = true;
        }
    });
    names(OF_BUILDS, met)
}

/// The operand of a record, if it is a face.
fn operand(record: &Record) -> Option<usize> {
    match *record {
        Record::Face(a) => Some(a),
        _ => None,
    }
}

/// Whether bounds end at 0, are 0, or begin at 0, by 0, 1 or 2.
fn at_an_end(Interval { low, high }: Interval) -> Option<usize> {
    match (low.signum(), high.signum()) {
        (-1, 0) => Some(0),
        (0, 0) => Some(1),
        (0, 1) => Some(2),
        _ => None,
    }
}

/// Those of the points of a lookup that are answered, each once.
pub fn of_lookup(asked: &Lookup) -> Vec<&'static str> {
    let Ok(opened) = lookup::open(&asked.sheet, &asked.map) else {
        return vec![];
    };
    let first = first(opened.sheet.version, &OF_LOOKUPS);
    let met = |&point: &[i32; 3]| match on_its_face(&opened, point)? {
        TERMINAL => Some(OF_LOOKUPS[first]),
        _ => Some(OF_LOOKUPS[first + 1]),
    };
    asked.points.iter().filter_map(met).collect()
}

/// The class of the leaf that holds a point, if it is terminal and the operand of its face is 0 at the point.
pub fn on_its_face(opened: &Opened, point: [i32; 3]) -> Option<u8> {
    let colour = opened.leaf(point)?.colour;
    let is_terminal = [TERMINAL, TERMINAL_COMPLEMENT].contains(&colour.class);
    let face = is_terminal.then_some(usize::from(colour.face))?;
    let operand = operand(&opened.sheet.records[face])?;
    let values = Values::at(&opened.sheet, &Point::whole(point));
    values.is_zero(operand).then_some(colour.class)
}

/// The operands of the faces that the solid is worked out from.
fn operands_of_solid(sheet: &Sheet) -> Vec<usize> {
    let records = &sheet.records;
    let mut is_used = vec![false; records.len()];
    is_used[records.len() - 1] = true;
    for number in (0..records.len()).rev() {
        if is_used[number] {
            for earlier in records[number].operands() {
                is_used[earlier] = true;
            }
        }
    }
    let used = records.iter().zip(is_used);
    used.filter_map(|(record, is_used)| operand(record).filter(|_| is_used))
        .collect()
}

/// Whether the bounds of one of these over a closed cube begin or end at 0.
pub fn is_over(sheet: &Sheet, cube: &Cube) -> bool {
    let bounds = bounds::over(sheet, cube);
    let mut operands = operands_of_solid(sheet).into_iter();
    operands.any(|a| bounds[a].and_then(at_an_end).is_some())
}

/// Whether one of these is 0 at a point, by what all records are there.
pub fn is_among(sheet: &Sheet, values: &Values) -> bool {
    let mut operands = operands_of_solid(sheet).into_iter();
    operands.any(|a| values.is_zero(a))
}

#[cfg(test)]
mod tests {
    use super::*;
    use crate::builds::sound;
    use crate::random::Random;
    use paper::sheet::{Record::*, Version::*};

    /// The faces of x less 2, of 0 and of x; the solid has only the first two.
    fn sheet(version: Version) -> Sheet {
        let arithmetic = [X, Constant(2), Difference(0, 1), Constant(0)];
        let logical = [Face(2), Face(3), Face(0), Either(4, 5)];
        Sheet {
            version,
            records: [&arithmetic[..], &logical].concat(),
        }
    }

    #[test]
    fn bounds_at_0_are_named_by_version() {
        let root = |x| Root {
            low: [x, 0, 0],
            k: 1,
            d: 1,
        };
        let [end, zero, begin] = [0, 1, 2].map(|at| OF_BUILDS[at]);
        assert_eq!(of_build(&sheet(One), &root(-1)), [zero]);
        assert_eq!(of_build(&sheet(One), &root(0)), [end, zero, begin]);
        let [end, zero, begin] = [3, 4, 5].map(|at| OF_BUILDS[at]);
        assert_eq!(of_build(&sheet(Two), &root(-2)), [end, zero]);
        assert_eq!(of_build(&sheet(Two), &root(2)), [zero, begin]);
    }

    #[test]
    fn only_faces_of_the_solid_count() {
        let of = |x| {
            let sheet = Sheet {
                records: sheet(One).records[..5].to_vec(),
                version: One,
            };
            let cube = Root {
                low: [x, 0, 0],
                k: 0,
                d: 0,
            };
            let values = Values::at(&sheet, &Point::whole([x, 0, 0]));
            [is_over(&sheet, &cube.cube()), is_among(&sheet, &values)]
        };
        assert_eq!(of(0), [false, false]);
        assert_eq!(of(1), [true, false]);
        assert_eq!(of(2), [true, true]);
        assert_eq!(of(3), [false, false]);
    }

    /// The colour of a cube and what is inside are the same in both versions, but where a face of the solid is 0.
    #[test]
    fn the_versions_differ_only_there() {
        let mut random = Random::of_case(1, "zeros", 0);
        let mut differ = [0, 0];
        for _ in 0..500 {
            let plan = sound(&mut random);
            let is_within = || bounds::within_limit(&plan.sheet(), &plan.root).is_ok();
            if !(plan.root.in_limits() && is_within()) {
                continue;
            }
            let [one, two] = [One, Two].map(|version| Sheet {
                version,
                ..plan.sheet()
            });
            let cube = plan.root.cube();
            let colours = [&one, &two].map(|sheet| paper::colour::colour(sheet, &cube));
            if colours[0] != colours[1] {
                differ[0] += 1;
                assert!(is_over(&one, &cube));
            }
            let values = [&one, &two].map(|sheet| Values::at(sheet, &Point::whole(plan.root.low)));
            if values[0].is_inside() != values[1].is_inside() {
                differ[1] += 1;
                assert!(is_among(&one, &values[0]));
            }
        }
        assert!(differ[0] > 0 && differ[1] > 0, "{differ:?}");
    }
}
