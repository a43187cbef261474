//! Wrong rules of what refining refuses, and in which order.

use crate::case::{Case, Outcome, Refine};
use crate::expect::{by_paper, of_refined};
use crate::fault::Fault;
use crate::slips::Wrong;
use paper::bounds::{self, FURTHEST};
use paper::colour::{self, GRAY};
use paper::map::{self, Map, HEADER, LEAF};
use paper::refine::{deepened, leaves};
use paper::sheet::{self, Sheet};
use paper::{reply, Refusal, Reply};

pub const ALL: [(&str, Wrong); 15] = [
    ("a smaller depth accepted", smaller_accepted),
    ("an equal depth refused", equal_refused),
    ("a depth over k accepted", over_k_accepted),
    ("a depth over 10 accepted", over_10_accepted),
    ("6 with the map's depth", with_depth),
    ("6 before 9", depth_before_map),
    ("7 before 9", bounds_before_map),
    ("9 before 1 to 5", map_before_sheet),
    ("7 before 6", bounds_before_depth),
    ("8 before 7", buffer_before_bounds),
    ("8 before 6", buffer_before_depth),
    ("7 over the cubes of gray leaves", bounds_of_gray),
    ("a terminal leaf may name any record", without_clause),
    ("faces tested after all leaves", faces_last),
    ("a map must be the sheet's own", own_alone),
];

/// The paper's outcome, with other replies, which leave the buffer as it was.
fn refused(case: &Case, other: impl FnOnce(&Refine, Reply) -> Option<Refusal>) -> Outcome {
    let outcome = by_paper(case);
    let Case::Refine(asked) = case else {
        return outcome;
    };
    match other(asked, outcome.replies[0]) {
        Some(refusal) => of_refined(asked, Err(refusal)),
        None => outcome,
    }
}

/// The paper's outcome of a refine to another depth, where it refuses one by 6.
fn to_depth(case: &Case, other: impl FnOnce(&Refine) -> Option<u8>) -> Outcome {
    let outcome = by_paper(case);
    let (Case::Refine(asked), 6) = (case, outcome.replies[0].code) else {
        return outcome;
    };
    match other(asked) {
        Some(d) => by_paper(&Case::Refine(Refine { d, ..asked.clone() })),
        None => outcome,
    }
}

fn smaller_accepted(case: &Case) -> Outcome {
    to_depth(case, |asked| {
        let d = map::root(&asked.map).d;
        (asked.d < d).then_some(d)
    })
}

fn over_k_accepted(case: &Case) -> Outcome {
    to_depth(case, |asked| {
        let root = map::root(&asked.map);
        (asked.d > root.k && asked.d <= 10).then_some(root.d)
    })
}

fn over_10_accepted(case: &Case) -> Outcome {
    to_depth(case, |asked| {
        let root = map::root(&asked.map);
        (asked.d > 10 && asked.d <= root.k).then_some(root.d)
    })
}

fn equal_refused(case: &Case) -> Outcome {
    refused(case, |asked, given| {
        let is_tested = [0, 7, 8].contains(&given.code);
        (is_tested && asked.d == map::root(&asked.map).d).then_some(reply(6, 0))
    })
}

fn with_depth(case: &Case) -> Outcome {
    refused(case, |asked, given| {
        let d = map::root(&asked.map).d;
        (given.code == 6).then(|| reply(6, d.into()))
    })
}

/// By the depth in the header, if there is one.
fn depth_before_map(case: &Case) -> Outcome {
    refused(case, |asked, given| {
        let root = map::root(asked.map.get(..HEADER)?);
        let is_bad = asked.d < root.d || asked.d > 10 || asked.d > root.k;
        (given.code == 9 && is_bad).then_some(reply(6, 0))
    })
}

/// 7, over the root in the map's header, where another refusal is given.
fn bounds_before(case: &Case, code: u32) -> Outcome {
    refused(case, |_, given| {
        let fault = (given.code == code).then(|| Fault::of(case)).flatten()?;
        Some(reply(7, fault.past.number()))
    })
}

fn bounds_before_map(case: &Case) -> Outcome {
    bounds_before(case, 9)
}

fn bounds_before_depth(case: &Case) -> Outcome {
    bounds_before(case, 6)
}

fn map_before_sheet(case: &Case) -> Outcome {
    refused(case, |asked, given| {
        let opened = map::open(&asked.map);
        ((1..=5).contains(&given.code) && opened.code == 9).then_some(opened)
    })
}

/// 8 for a buffer that no map fits, where another refusal is given.
fn buffer_before(case: &Case, code: u32) -> Outcome {
    refused(case, |asked, given| {
        let least = HEADER + LEAF;
        (given.code == code && asked.out_len < least).then_some(reply(8, least))
    })
}

fn buffer_before_bounds(case: &Case) -> Outcome {
    buffer_before(case, 7)
}

fn buffer_before_depth(case: &Case) -> Outcome {
    buffer_before(case, 6)
}

/// The paper's outcome, but with a map that is read, tested for 7 and written by others where the sheet is good.
fn by_reading(
    case: &Case,
    read: impl FnOnce(&[u8], &Sheet) -> Result<Map, Refusal>,
    within: impl FnOnce(&Sheet, &Map) -> Result<(), Refusal>,
) -> Outcome {
    let Case::Refine(asked) = case else {
        return by_paper(case);
    };
    let new = sheet::read(&asked.sheet).and_then(|sheet| {
        let map = read(&asked.map, &sheet)?;
        let root = deepened(&map.root, asked.d)?;
        within(&sheet, &map)?;
        let leaves = leaves(&colour::colour, &sheet, &map, asked.d);
        Ok(map::write(&root, &leaves))
    });
    of_refined(asked, new)
}

/// The limit is tested over the cubes that are coloured, and not over the root.
fn bounds_of_gray(case: &Case) -> Outcome {
    by_reading(case, map::read_for, |sheet, map| {
        let mut gray = map.cubes().filter(|(_, leaf)| leaf.colour.class == GRAY);
        let past = gray.find_map(|(cube, _)| bounds::first_past(FURTHEST, sheet, &cube));
        past.map_or(Ok(()), |past| Err(reply(7, past.number())))
    })
}

fn without_clause(case: &Case) -> Outcome {
    let within = |sheet: &Sheet, map: &Map| bounds::within_limit(sheet, &map.root);
    by_reading(case, |bytes, _| map::read(bytes), within)
}

fn faces_last(case: &Case) -> Outcome {
    refused(case, |asked, given| {
        let opened = map::open(&asked.map);
        (given.code == 9 && opened.code == 9).then_some(opened)
    })
}

/// 9 at the first leaf that the rules colour otherwise, as if the map of another sheet were a bad one.
fn own_alone(case: &Case) -> Outcome {
    refused(case, |asked, given| {
        if ![0, 8].contains(&given.code) {
            return None;
        }
        let sheet = sheet::read(&asked.sheet).ok()?;
        let map = map::read_for(&asked.map, &sheet).ok()?;
        let mut all = map.cubes().enumerate();
        let (at, _) = all.find(|(_, (cube, leaf))| colour::colour(&sheet, cube) != leaf.colour)?;
        Some(reply(9, HEADER + LEAF * at))
    })
}
