//! Wrong rules of building.

use crate::case::{Build, Case, Outcome};
use crate::expect::{by_paper, of_map};
use paper::bounds::{self, interval, Interval, FURTHEST};
use paper::build::{map_by, Colouring};
use paper::colour::{self, Colour, Rules, State, RULES};
use paper::colour::{BLACK, GRAY, TERMINAL, TERMINAL_COMPLEMENT, WHITE};
use paper::fractions::{Point, Values};
use paper::map::{self, Leaf};
use paper::root::{Cube, Root};
use paper::sheet::{
    self, Record, Sheet,
    Version::{self, One},
};
use paper::{reply, Refusal, Reply};

/// Deeper maps built by a wrong rule may have millions of leaves.
pub const DEEPEST: u8 = 4;

/// The outcome of a build whose map is made in another way; for any other case, the paper's outcome.
fn built(case: &Case, map: impl Fn(&Sheet, &Root) -> Result<Vec<u8>, Refusal>) -> Outcome {
    let asked = match case {
        Case::Build(asked) if asked.root.d <= DEEPEST => asked,
        _ => return by_paper(case),
    };
    let sheet = sheet::read(&asked.sheet);
    of_map(asked, sheet.and_then(|sheet| map(&sheet, &asked.root)))
}

pub fn coloured(case: &Case, colouring: &Colouring) -> Outcome {
    built(case, |sheet, root| map_by(colouring, sheet, root))
}

/// The paper's map, over another root.
fn over_root(case: &Case, other: fn(&Root) -> Root) -> Outcome {
    built(case, |sheet, root| {
        map_by(&colour::colour, sheet, &other(root))
    })
}

pub fn low_corner_exchanged(case: &Case) -> Outcome {
    over_root(case, |root| {
        let [x, y, z] = root.low;
        Root {
            low: [x, z, y],
            ..*root
        }
    })
}

/// A side of 2^16 is out of limits too.
pub fn k_at_most_15(case: &Case) -> Outcome {
    over_root(case, |root| Root {
        k: if root.k == 16 { 17 } else { root.k },
        ..*root
    })
}

pub fn limit_refused(case: &Case) -> Outcome {
    built(case, |sheet, root| {
        let reached = || bounds::first_past(FURTHEST - 1, sheet, &root.cube());
        match root.in_limits().then(reached).flatten() {
            Some(past) => Err(reply(7, past.number())),
            None => map_by(&colour::colour, sheet, root),
        }
    })
}

/// The paper's map, from other records.
fn of_records(case: &Case, other: fn(&Record) -> Option<Record>) -> Outcome {
    built(case, |sheet, root| {
        let read = |record: &Record| other(record).unwrap_or(record.clone());
        let other = Sheet {
            version: sheet.version,
            records: sheet.records.iter().map(read).collect(),
        };
        map_by(&colour::colour, &other, root)
    })
}

pub fn square_as_product(case: &Case) -> Outcome {
    of_records(case, |record| match *record {
        Record::Square(a) => Some(Record::Product(a, a)),
        _ => None,
    })
}

pub fn kinds_exchanged(case: &Case) -> Outcome {
    of_records(case, |record| match *record {
        Record::Sum(a, b) => Some(Record::Product(a, b)),
        Record::Product(a, b) => Some(Record::Sum(a, b)),
        _ => None,
    })
}

/// The paper's map of a root that is not split, by another rule of products.
fn by_products(case: &Case, product: bounds::Rule) -> Outcome {
    built(case, |sheet, root| {
        if let Some(past) = bounds::first_past_by(product, FURTHEST, sheet, &root.cube()) {
            return Err(reply(7, past.number()));
        }
        let bounds = bounds::over_by(product, sheet, &root.cube());
        let colour = colour::class(colour::solid(&RULES, sheet, &bounds));
        Ok(map::write(root, &[Leaf { level: 0, colour }]))
    })
}

/// The low ends give the low end, and the high ends the high end, whatever their signs.
pub fn signs_ignored(case: &Case) -> Outcome {
    by_products(case, |a, b| interval(a.low * b.low, a.high * b.high))
}

/// Where both operands have zero inside, two of the four products are left out.
pub fn two_left_out(case: &Case) -> Outcome {
    by_products(case, |a, b| {
        let across = |of: Interval| of.low < 0 && 0 < of.high;
        if across(a) && across(b) {
            interval(a.high * b.low, a.low * b.low)
        } else {
            a.product(b)
        }
    })
}

pub fn z_reads_y(case: &Case) -> Outcome {
    of_records(case, |record| (*record == Record::Z).then_some(Record::Y))
}

/// Black if all corners are inside, white if none is.
pub fn corners(sheet: &Sheet, cube: &Cube) -> Colour {
    let corner = |number: usize| {
        let along = |axis: usize| cube.low[axis] + cube.side * ((number >> axis) & 1) as i64;
        Point::whole([0, 1, 2].map(|axis| along(axis) as i32))
    };
    let inside = (0..8).filter(|&number| Values::at(sheet, &corner(number)).is_inside());
    let class = match inside.count() {
        0 => WHITE,
        8 => BLACK,
        _ => GRAY,
    };
    Colour { class, face: 0 }
}

/// The paper's colour, but in a version a face with some bounds has another state.
pub fn by_face(
    sheet: &Sheet,
    cube: &Cube,
    version: Version,
    other: fn(usize, Interval) -> Option<State>,
) -> Colour {
    let face = |of, number, bounds| {
        let other = (of == version).then(|| other(number, bounds)).flatten();
        other.unwrap_or(colour::face(of, number, bounds))
    };
    let face = &face;
    colour::colour_by(&Rules { face, ..RULES }, sheet, cube)
}

pub fn zero_out(sheet: &Sheet, cube: &Cube) -> Colour {
    by_face(sheet, cube, One, |_, of| {
        (of.low == 0 && of.high > 0).then_some(State::Out)
    })
}

pub fn zero_undecided(sheet: &Sheet, cube: &Cube) -> Colour {
    by_face(sheet, cube, One, |number, of| {
        (of.high == 0).then_some(State::Single(number))
    })
}

pub fn either_not_passed_on(sheet: &Sheet, cube: &Cube) -> Colour {
    let either = |p, q| match (p, q) {
        (State::In, _) | (_, State::In) => State::In,
        (State::Out, State::Out) => State::Out,
        _ => State::Mixed,
    };
    let either = &either;
    colour::colour_by(&Rules { either, ..RULES }, sheet, cube)
}

pub fn complement_ignored(sheet: &Sheet, cube: &Cube) -> Colour {
    let complement = &|p| p;
    let rules = Rules {
        complement,
        ..RULES
    };
    colour::colour_by(&rules, sheet, cube)
}

/// A leaf is terminal only if the sheet has one face.
pub fn all_faces(sheet: &Sheet, cube: &Cube) -> Colour {
    let colour = colour::colour(sheet, cube);
    let faces = (0..sheet.records.len()).filter(|&number| sheet.is_face(number));
    let has_more = faces.count() > 1;
    match colour.class {
        TERMINAL | TERMINAL_COMPLEMENT if has_more => Colour {
            class: GRAY,
            face: 0,
        },
        _ => colour,
    }
}

/// Child number = z half + 2 (y half) + 4 (x half): each cube gets the colour of its mirror image, with x and z exchanged.
pub fn z_first(case: &Case) -> Outcome {
    let Case::Build(asked) = case else {
        return by_paper(case);
    };
    let root = asked.root.low.map(i64::from);
    let across = move |cube: &Cube| {
        let offset = [0, 1, 2].map(|axis| cube.low[axis] - root[axis]);
        let low = [0, 1, 2].map(|axis| root[axis] + offset[2 - axis]);
        Cube { low, ..*cube }
    };
    coloured(case, &|sheet, cube| colour::colour(sheet, &across(cube)))
}

/// The paper's outcome of a build, changed.
fn changed_build(case: &Case, change: impl Fn(&Build, &mut Outcome)) -> Outcome {
    let mut outcome = by_paper(case);
    if let Case::Build(asked) = case {
        change(asked, &mut outcome);
    }
    outcome
}

pub fn later_cleared(case: &Case) -> Outcome {
    changed_build(case, |_, outcome| {
        if let Reply { code: 0, number } = outcome.replies[0] {
            outcome.out[number as usize..].fill(0);
        }
    })
}

pub fn short_filled(case: &Case) -> Outcome {
    changed_build(case, |asked, outcome| {
        if outcome.replies[0].code == 8 {
            let whole = paper::build::map_of(&asked.sheet, &asked.root).unwrap_or_default();
            outcome.out.copy_from_slice(&whole[..asked.out_len]);
        }
    })
}
