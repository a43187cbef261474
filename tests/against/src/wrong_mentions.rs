//! Wrong rules of both and either for two states of one face each, which request 2026-03 decides.

use paper::before_03;
use paper::bounds;
use paper::colour::{self, complement, Colour, Rules, State, State::*, RULES};
use paper::root::Cube;
use paper::sheet::{Record, Sheet};

#[derive(Clone, Copy, PartialEq)]
enum Kind {
    Both,
    Either,
}

use Kind::*;

impl Kind {
    fn of(self, p: State, q: State) -> State {
        match self {
            Both => colour::both(p, q),
            Either => colour::either(p, q),
        }
    }
}

/// The paper's colour, by another rule for two such states; it returns None where it agrees with the paper.
fn by_faces(
    sheet: &Sheet,
    cube: &Cube,
    other: impl Fn(Kind, State, State) -> Option<State>,
) -> Colour {
    let of = |kind: Kind, p, q| match (p, q) {
        (Single(_) | Comp(_), Single(_) | Comp(_)) => other(kind, p, q).unwrap_or(kind.of(p, q)),
        _ => kind.of(p, q),
    };
    let rules = Rules {
        both: &|p, q| of(Both, p, q),
        either: &|p, q| of(Either, p, q),
        ..RULES
    };
    colour::colour_by(&rules, sheet, cube)
}

/// Two different faces on one side give the first of them.
pub fn first_of_two(sheet: &Sheet, cube: &Cube) -> Colour {
    by_faces(sheet, cube, |_, p, q| match (p, q) {
        (Single(_), Single(_)) | (Comp(_), Comp(_)) => Some(p),
        _ => None,
    })
}

/// The paper's colour, but both or either of a face and its complement is something else.
fn with_complement(sheet: &Sheet, cube: &Cube, of: Kind, is: State) -> Colour {
    by_faces(sheet, cube, |kind, p, q| {
        (kind == of && p == complement(q)).then_some(is)
    })
}

pub fn both_of_complement_mixed(sheet: &Sheet, cube: &Cube) -> Colour {
    with_complement(sheet, cube, Both, Mixed)
}

pub fn both_of_complement_in(sheet: &Sheet, cube: &Cube) -> Colour {
    with_complement(sheet, cube, Both, In)
}

pub fn either_of_complement_mixed(sheet: &Sheet, cube: &Cube) -> Colour {
    with_complement(sheet, cube, Either, Mixed)
}

pub fn either_of_complement_out(sheet: &Sheet, cube: &Cube) -> Colour {
    with_complement(sheet, cube, Either, Out)
}

/// A face and its complement are decided only if the face comes first.
pub fn face_first(sheet: &Sheet, cube: &Cube) -> Colour {
    by_faces(sheet, cube, |_, p, q| match p {
        Comp(f) if q == Single(f) => Some(Mixed),
        _ => None,
    })
}

pub fn comp_as_single(sheet: &Sheet, cube: &Cube) -> Colour {
    by_faces(sheet, cube, |_, p, q| match p {
        Comp(f) if p == q => Some(Single(f)),
        _ => None,
    })
}

/// A face is mentioned twice only if the operands are one record.
pub fn by_record(sheet: &Sheet, cube: &Cube) -> Colour {
    let bounds = bounds::over(sheet, cube);
    let mut states = Vec::new();
    for (number, record) in sheet.records.iter().enumerate() {
        let rules = match *record {
            Record::Both(p, q) | Record::Either(p, q) if p != q => &before_03::RULES,
            _ => &RULES,
        };
        states.push(colour::state(rules, sheet, number, &bounds, &states));
    }
    let solid = states.pop().flatten();
    colour::class(solid.expect("the last record is logical"))
}

/// Two faces over one operand are taken for the first of them.
pub fn by_operand(sheet: &Sheet, cube: &Cube) -> Colour {
    let same = |f: usize, g: usize| sheet.records[f] == sheet.records[g];
    by_faces(sheet, cube, |kind, p, q| match (p, q) {
        (Single(f) | Comp(f), Single(g)) if same(f, g) => Some(kind.of(p, Single(f))),
        (Single(f) | Comp(f), Comp(g)) if same(f, g) => Some(kind.of(p, Comp(f))),
        _ => None,
    })
}
