//! "Colour of a cube".

use crate::bounds::{self, Interval};
use crate::root::Cube;
use crate::sheet::{
    Record::*,
    Sheet,
    Version::{self, *},
};

/// The state of a logical record over a cube. A face is known by its record number.
#[derive(Clone, Copy, Debug, PartialEq, Eq)]
pub enum State {
    In,
    Out,
    Single(usize),
    Comp(usize),
    Mixed,
}

use State::*;

pub const WHITE: u8 = 0;
pub const BLACK: u8 = 1;
pub const TERMINAL: u8 = 2;
pub const TERMINAL_COMPLEMENT: u8 = 3;
pub const GRAY: u8 = 4;

/// A class, and the face it names: 0 unless the class is 2 or 3.
#[derive(Clone, Copy, Debug, PartialEq, Eq)]
pub struct Colour {
    pub class: u8,
    pub face: u8,
}

/// Document 01 for version 1. Request 2026-07 for version 2: "In if b < 0, Out if a >= 0, otherwise Single."
pub fn face(version: Version, number: usize, bounds: Interval) -> State {
    let Interval { low: a, high: b } = bounds;
    let (is_in, is_out) = match version {
        One => (b <= 0, a > 0),
        Two => (b < 0, a >= 0),
    };
    if is_in {
        In
    } else if is_out {
        Out
    } else {
        Single(number)
    }
}

pub fn complement(p: State) -> State {
    match p {
        In => Out,
        Out => In,
        Single(f) => Comp(f),
        Comp(f) => Single(f),
        Mixed => Mixed,
    }
}

/// Document 01, with request 2026-03: "both or either of Single(f) with Single(f) is Single(f), and likewise Comp(f); both
/// of Single(f) with Comp(f), in either order, is Out, and either of them is In. Different faces stay Mixed."
pub fn both(p: State, q: State) -> State {
    match (p, q) {
        (Out, _) | (_, Out) => Out,
        (In, other) | (other, In) => other,
        (Single(f), Single(g)) if f == g => Single(f),
        (Comp(f), Comp(g)) if f == g => Comp(f),
        (Single(f), Comp(g)) | (Comp(f), Single(g)) if f == g => Out,
        _ => Mixed,
    }
}

/// By the same sentence.
pub fn either(p: State, q: State) -> State {
    match (p, q) {
        (In, _) | (_, In) => In,
        (Out, other) | (other, Out) => other,
        (Single(f), Single(g)) if f == g => Single(f),
        (Comp(f), Comp(g)) if f == g => Comp(f),
        (Single(f), Comp(g)) | (Comp(f), Single(g)) if f == g => In,
        _ => Mixed,
    }
}

/// The rules for states. They are a parameter of colouring, so that a test can colour by others.
pub struct Rules<'a> {
    pub face: &'a dyn Fn(Version, usize, Interval) -> State,
    pub both: &'a dyn Fn(State, State) -> State,
    pub either: &'a dyn Fn(State, State) -> State,
    pub complement: &'a dyn Fn(State) -> State,
}

pub const RULES: Rules = Rules {
    face: &face,
    both: &both,
    either: &either,
    complement: &complement,
};

/// The state of a sheet's record with this number, from the bounds of all records and the states of those before it;
/// None if it is arithmetic.
pub fn state(
    rules: &Rules,
    sheet: &Sheet,
    number: usize,
    bounds: &[Option<Interval>],
    before: &[Option<State>],
) -> Option<State> {
    let of = |p: usize| before[p].expect("an operand is logical");
    let bounds_of = |a: usize| bounds[a].expect("an operand is arithmetic");
    match sheet.records[number] {
        Face(a) => Some((rules.face)(sheet.version, number, bounds_of(a))),
        Both(p, q) => Some((rules.both)(of(p), of(q))),
        Either(p, q) => Some((rules.either)(of(p), of(q))),
        Complement(p) => Some((rules.complement)(of(p))),
        _ => None,
    }
}

/// The states of all records, from their bounds.
pub fn states(rules: &Rules, sheet: &Sheet, bounds: &[Option<Interval>]) -> Vec<Option<State>> {
    let mut states = Vec::new();
    for number in 0..sheet.records.len() {
        states.push(state(rules, sheet, number, bounds, &states));
    }
    states
}

/// The solid's state: that of the last record.
pub fn solid(rules: &Rules, sheet: &Sheet, bounds: &[Option<Interval>]) -> State {
    let last = states(rules, sheet, bounds).pop().flatten();
    last.expect("the last record is logical")
}

/// The solid's state gives the class.
pub fn class(solid: State) -> Colour {
    let (class, face) = match solid {
        Out => (WHITE, 0),
        In => (BLACK, 0),
        Single(f) => (TERMINAL, f),
        Comp(f) => (TERMINAL_COMPLEMENT, f),
        Mixed => (GRAY, 0),
    };
    Colour {
        class,
        face: face as u8,
    }
}

/// The colour of a cube of a root that is within the limit.
pub fn colour(sheet: &Sheet, cube: &Cube) -> Colour {
    colour_by(&RULES, sheet, cube)
}

/// The same, by given rules.
pub fn colour_by(rules: &Rules, sheet: &Sheet, cube: &Cube) -> Colour {
    class(solid(rules, sheet, &bounds::over(sheet, cube)))
}
