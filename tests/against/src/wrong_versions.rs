//! Wrong rules of the two versions of a sheet (request 2026-07).

use crate::case::{Case, Outcome};
use crate::expect::by_paper;
use crate::wrong_builds::{by_face, DEEPEST};
use crate::wrong_reads::changed_replies;
use crate::zeros;
use paper::colour::{Colour, State, TERMINAL_COMPLEMENT};
use paper::lookup::{self, OUTSIDE};
use paper::reply;
use paper::root::Cube;
use paper::sheet::{Sheet, Version::Two};

/// The paper's outcome of the case with another version, from the first three bytes of its sheet. A deep build or refine, whose
/// map by another version might have millions of leaves, stays as it is.
fn read_as(case: &Case, version: fn(&[u8; 3]) -> u8) -> Outcome {
    let d = match case {
        Case::Build(build) => build.root.d,
        Case::Refine(refine) => refine.d,
        _ => 0,
    };
    if d > DEEPEST {
        return by_paper(case);
    }
    by_paper(&case.with_sheet(|sheet| {
        if let Some(first) = sheet.first_chunk_mut::<3>() {
            first[2] = version(first);
        }
    }))
}

/// Every face excludes itself.
pub fn strict_in_both(case: &Case) -> Outcome {
    read_as(case, |&[.., version]| match version {
        1 => 2,
        other => other,
    })
}

/// No face does. For builds alone it is a library that is strict only when it looks up; for lookups alone, one that is strict
/// only when it builds, and tests a version 2 face at a point by at most 0.
pub fn strict_in_none(case: &Case) -> Outcome {
    read_as(case, |&[.., version]| match version {
        2 => 1,
        other => other,
    })
}

/// Version 1 means what version 2 should, and the other way round.
pub fn exchanged(case: &Case) -> Outcome {
    read_as(case, |&[.., version]| match version {
        1 => 2,
        2 => 1,
        other => other,
    })
}

/// Version 3 is read as version 2.
pub fn version_3_read(case: &Case) -> Outcome {
    read_as(case, |&[.., version]| match version {
        3 => 2,
        other => other,
    })
}

/// Version 0 is read as version 1: only versions above 2 are refused.
pub fn version_0_read(case: &Case) -> Outcome {
    read_as(case, |&[.., version]| match version {
        0 => 1,
        other => other,
    })
}

/// As before the request.
pub fn version_2_refused(case: &Case) -> Outcome {
    read_as(case, |&[.., version]| match version {
        2 => 0,
        other => other,
    })
}

/// Only the lowest two bits are read, so that 253 is version 1.
pub fn lowest_bits(case: &Case) -> Outcome {
    read_as(case, |&[.., version]| version & 3)
}

/// The version is the byte before.
pub fn from_byte_1(case: &Case) -> Outcome {
    read_as(case, |&[_, byte, _]| byte)
}

/// Version 2: Out at a > 0, so that [0, 2] and [0, 0] are Single.
pub fn zero_not_out(sheet: &Sheet, cube: &Cube) -> Colour {
    by_face(sheet, cube, Two, |number, of| {
        (of.low == 0).then_some(State::Single(number))
    })
}

/// Version 2: In at b <= 0, so that [-2, 0] is In. [0, 0] is too, since In is tested first.
pub fn zero_in(sheet: &Sheet, cube: &Cube) -> Colour {
    by_face(sheet, cube, Two, |_, of| {
        (of.high == 0).then_some(State::In)
    })
}

/// Version 2: only [0, 0] is In.
pub fn only_zero_in(sheet: &Sheet, cube: &Cube) -> Colour {
    by_face(sheet, cube, Two, |_, of| {
        (of.low == 0 && of.high == 0).then_some(State::In)
    })
}

/// Version 2: only [0, 0] is Single.
pub fn only_zero_single(sheet: &Sheet, cube: &Cube) -> Colour {
    by_face(sheet, cube, Two, |number, of| {
        (of.low == 0 && of.high == 0).then_some(State::Single(number))
    })
}

/// Version 2: a point on a face is on neither side of it, so that class 3 answers outside there too.
pub fn on_neither_side(case: &Case) -> Outcome {
    let Case::Lookup(asked) = case else {
        return by_paper(case);
    };
    let opened = lookup::open(&asked.sheet, &asked.map).ok();
    let opened = opened.filter(|opened| opened.sheet.version == Two);
    let is_on = |point| {
        let class = opened
            .as_ref()
            .and_then(|opened| zeros::on_its_face(opened, point));
        class == Some(TERMINAL_COMPLEMENT)
    };
    let mut points = asked.points.iter();
    changed_replies(case, |given| {
        if points.next().is_some_and(|&point| is_on(point)) {
            *given = reply(0, OUTSIDE);
        }
    })
}
