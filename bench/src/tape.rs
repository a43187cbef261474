//! Words, for the program that carries down: how each record is worked out, and its entry over the cube at hand.
use crate::colour::{Cube, Interval, State};
use crate::records::Record;

/// A number of 8 bits is never past the end of an array of this length.
pub const NUMBERS: usize = 256;

#[derive(Clone, Copy, PartialEq)]
pub enum Kind {
    X,
    Y,
    Z,
    Sum,
    Difference,
    Product,
    Square,
    Face,
    Both,
    Either,
    Complement,
}

/// How a record is worked out. A single operand stands twice, and where there is none the record's own number does.
#[derive(Clone, Copy)]
pub struct Word {
    pub kind: Kind,
    pub number: u8,
    pub operands: [u8; 2],
}

impl Word {
    /// The word of a record. A constant has none: its bounds are the same over every cube.
    pub fn of(record: Record, number: u8) -> Option<Word> {
        let (kind, operands) = match record {
            Record::Constant(_) => return None,
            Record::X => (Kind::X, [number; 2]),
            Record::Y => (Kind::Y, [number; 2]),
            Record::Z => (Kind::Z, [number; 2]),
            Record::Sum(a, b) => (Kind::Sum, [a, b]),
            Record::Difference(a, b) => (Kind::Difference, [a, b]),
            Record::Product(a, b) => (Kind::Product, [a, b]),
            Record::Square(a) => (Kind::Square, [a; 2]),
            Record::Face(a, _) => (Kind::Face, [a; 2]),
            Record::Both(p, q) => (Kind::Both, [p, q]),
            Record::Either(p, q) => (Kind::Either, [p, q]),
            Record::Complement(p) => (Kind::Complement, [p; 2]),
        };
        Some(Word {
            kind,
            number,
            operands,
        })
    }

    pub fn has_logical_operands(&self) -> bool {
        matches!(self.kind, Kind::Both | Kind::Either | Kind::Complement)
    }

    pub fn is_logical(&self) -> bool {
        self.kind == Kind::Face || self.has_logical_operands()
    }
}

/// The bounds and states of records over a cube, for those that its tape has. Those of other records are left from other cubes, and not
/// read; but constants have theirs from the start.
pub struct Entries {
    /// What a face's operand is less than.
    below: i64,
    /// The first x, y and z of the sheet, which are put before the loop and not on a tape. If there is none it is the solid, whose bounds
    /// are not read.
    axes: [u8; 3],
    bounds: [Interval; NUMBERS],
    states: [State; NUMBERS],
}

impl Entries {
    pub fn of(records: &[Record]) -> Entries {
        let first = |is: fn(&Record) -> bool| records.iter().position(is);
        let axes = [
            first(|record| matches!(record, Record::X)),
            first(|record| matches!(record, Record::Y)),
            first(|record| matches!(record, Record::Z)),
        ];
        let mut entries = Entries {
            below: 0,
            axes: axes.map(|number| number.unwrap_or(records.len() - 1) as u8),
            bounds: [Interval::default(); NUMBERS],
            states: [State::default(); NUMBERS],
        };
        for (number, &record) in records.iter().enumerate() {
            match record {
                Record::Constant(c) => entries.bounds[number] = Interval::new(c, c),
                Record::Face(_, below) => entries.below = below.into(),
                _ => (),
            }
        }
        entries
    }

    /// Whether a word is put before the loop.
    pub fn has_at_hand(&self, word: &Word) -> bool {
        !word.is_logical() && self.axes.contains(&word.number)
    }

    pub fn state_of(&self, number: u8) -> State {
        self.states[number as usize]
    }

    /// The bounds by the word of an arithmetic record.
    fn bounds(&self, word: Word, cube: &Cube) -> Interval {
        let [a, b] = word.operands.map(|a| self.bounds[a as usize]);
        match word.kind {
            Kind::X => cube.along(0),
            Kind::Y => cube.along(1),
            Kind::Z => cube.along(2),
            Kind::Sum => a.plus(b),
            Kind::Difference => a.minus(b),
            Kind::Product => a.times(b),
            _ => a.squared(),
        }
    }

    /// The state by the word of a logical record.
    fn state(&self, word: Word) -> State {
        let [p, q] = word.operands.map(usize::from);
        match word.kind {
            Kind::Face => State::of_face(self.bounds[p], self.below, word.number),
            Kind::Both => self.states[p].both(self.states[q]),
            Kind::Either => self.states[p].either(self.states[q]),
            _ => self.states[p].complement(),
        }
    }

    /// Works words out over a cube. Returns whether a record is decided there.
    pub fn fill(&mut self, arithmetic: &[Word], logical: &[Word], cube: &Cube) -> bool {
        for (axis, &number) in self.axes.iter().enumerate() {
            self.bounds[number as usize] = cube.along(axis);
        }
        for &word in arithmetic {
            self.bounds[word.number as usize] = self.bounds(word, cube);
        }
        let mut decided = false;
        for &word in logical {
            let state = self.state(word);
            decided |= matches!(state, State::In | State::Out);
            self.states[word.number as usize] = state;
        }
        decided
    }

    /// The record to read in the place of each within the cube: its twin, or itself.
    pub fn twins(&self, logical: &[Word]) -> [u8; NUMBERS] {
        let mut twins = std::array::from_fn(|number| number as u8);
        for word in logical {
            let passing = match word.kind {
                Kind::Both => State::In,
                Kind::Either => State::Out,
                _ => continue,
            };
            let [p, q] = word.operands.map(usize::from);
            if self.states[p] == passing {
                twins[word.number as usize] = twins[q];
            } else if self.states[q] == passing {
                twins[word.number as usize] = twins[p];
            }
        }
        twins
    }
}
