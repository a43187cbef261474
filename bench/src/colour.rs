//! The colour of a cube, for the plain programs: the bounds of all records over it, and the states of the logical ones.
use crate::records::Record;
use State::{Comp, In, Mixed, Out, Single};

/// Arithmetic bounds lie in -2^60 to 2^60.
const LIMIT: i64 = 1 << 60;

#[derive(Clone, Copy, Default)]
pub struct Interval {
    low: i64,
    high: i64,
}

impl Interval {
    pub fn new(low: i64, high: i64) -> Interval {
        Interval { low, high }
    }

    fn sum(self, other: Interval) -> Option<Interval> {
        self.plus(other).limited()
    }

    fn difference(self, other: Interval) -> Option<Interval> {
        self.minus(other).limited()
    }

    /// If one of the four products does not fit an i64, an end is past the limit, since all four lie between the ends.
    fn product(self, other: Interval) -> Option<Interval> {
        let a = self.low.checked_mul(other.low)?;
        let b = self.low.checked_mul(other.high)?;
        let c = self.high.checked_mul(other.low)?;
        let d = self.high.checked_mul(other.high)?;
        Interval::around([a, b, c, d]).limited()
    }

    fn square(self) -> Option<Interval> {
        let a = self.low.checked_mul(self.low)?;
        let b = self.high.checked_mul(self.high)?;
        self.of_squares(a, b).limited()
    }

    // The same where they are known to be within the limit.

    pub fn plus(self, other: Interval) -> Interval {
        Interval::new(self.low + other.low, self.high + other.high)
    }

    pub fn minus(self, other: Interval) -> Interval {
        Interval::new(self.low - other.high, self.high - other.low)
    }

    pub fn times(self, other: Interval) -> Interval {
        let (a, b) = (self.low * other.low, self.low * other.high);
        let (c, d) = (self.high * other.low, self.high * other.high);
        Interval::around([a, b, c, d])
    }

    pub fn squared(self) -> Interval {
        self.of_squares(self.low * self.low, self.high * self.high)
    }

    /// From the least to the greatest of four numbers.
    fn around([a, b, c, d]: [i64; 4]) -> Interval {
        Interval::new(a.min(b).min(c.min(d)), a.max(b).max(c.max(d)))
    }

    /// The bounds of the square, by the squares of the ends.
    fn of_squares(self, a: i64, b: i64) -> Interval {
        let low = if self.low >= 0 {
            a
        } else if self.high <= 0 {
            b
        } else {
            0
        };
        Interval::new(low, a.max(b))
    }

    /// The interval, if its ends are within the limit.
    fn limited(self) -> Option<Interval> {
        (self.low >= -LIMIT && self.high <= LIMIT).then_some(self)
    }

    fn ends(self) -> [i128; 2] {
        [self.low, self.high].map(i128::from)
    }
}

#[derive(Clone, Copy, PartialEq, Default)]
pub enum State {
    #[default]
    Out,
    In,
    Single(u8),
    Comp(u8),
    Mixed,
}

impl State {
    pub fn of_face(bounds: Interval, below: i64, face: u8) -> State {
        if bounds.high < below {
            In
        } else if bounds.low >= below {
            Out
        } else {
            Single(face)
        }
    }

    pub fn complement(self) -> State {
        match self {
            Out => In,
            In => Out,
            Single(face) => Comp(face),
            Comp(face) => Single(face),
            Mixed => Mixed,
        }
    }

    pub fn both(self, other: State) -> State {
        match (self, other) {
            (Out, _) | (_, Out) => Out,
            (In, state) | (state, In) => state,
            _ => self.of_faces(other, Out),
        }
    }

    pub fn either(self, other: State) -> State {
        match (self, other) {
            (In, _) | (_, In) => In,
            (Out, state) | (state, Out) => state,
            _ => self.of_faces(other, In),
        }
    }

    /// Both or either where neither state decides or is passed on: a face mentioned twice is itself, with its complement it is decided, and
    /// different faces are Mixed.
    fn of_faces(self, other: State, decided: State) -> State {
        if self == other {
            self
        } else if self == other.complement() {
            decided
        } else {
            Mixed
        }
    }

    /// The class and face number of a leaf.
    pub fn class(self) -> [u8; 2] {
        match self {
            Out => [0, 0],
            In => [1, 0],
            Single(face) => [2, face],
            Comp(face) => [3, face],
            Mixed => [4, 0],
        }
    }
}

#[derive(Clone, Copy)]
pub struct Cube {
    pub low: [i64; 3],
    pub side: i64,
    pub level: u8,
}

impl Cube {
    pub fn child(self, number: i64) -> Cube {
        let side = self.side / 2;
        let low = std::array::from_fn(|axis| self.low[axis] + side * (number >> axis & 1));
        Cube {
            low,
            side,
            level: self.level + 1,
        }
    }

    pub fn along(&self, axis: usize) -> Interval {
        Interval::new(self.low[axis], self.low[axis] + self.side)
    }
}

/// The solid's state over a cube, or the first record whose bounds pass the limit. The bounds of a logical record and the state of an arithmetic one are never read.
pub fn colour(
    records: &[Record],
    bounds: &mut [Interval],
    states: &mut [State],
    cube: &Cube,
) -> Result<State, usize> {
    let (bounds, states) = (&mut bounds[..records.len()], &mut states[..records.len()]);
    for (i, &record) in records.iter().enumerate() {
        match record {
            Record::Constant(c) => bounds[i] = Interval::new(c, c),
            Record::X => bounds[i] = cube.along(0),
            Record::Y => bounds[i] = cube.along(1),
            Record::Z => bounds[i] = cube.along(2),
            Record::Sum(a, b) => bounds[i] = bounds[a as usize].sum(bounds[b as usize]).ok_or(i)?,
            Record::Difference(a, b) => {
                bounds[i] = bounds[a as usize].difference(bounds[b as usize]).ok_or(i)?
            }
            Record::Product(a, b) => {
                bounds[i] = bounds[a as usize].product(bounds[b as usize]).ok_or(i)?
            }
            Record::Square(a) => bounds[i] = bounds[a as usize].square().ok_or(i)?,
            Record::Face(a, below) => {
                states[i] = State::of_face(bounds[a as usize], below.into(), i as u8)
            }
            Record::Both(p, q) => states[i] = states[p as usize].both(states[q as usize]),
            Record::Either(p, q) => states[i] = states[p as usize].either(states[q as usize]),
            Record::Complement(p) => states[i] = states[p as usize].complement(),
        }
    }
    Ok(states[records.len() - 1])
}

/// Document 01's number for the first record past the limit: twice its own, plus 1 if its low end is within the limit. Only a refusal needs
/// it, so it is worked out from the bounds of the records before, in 128 bits, and not in the loop that is timed. It is cold, since the loop
/// took up to an eighth longer otherwise.
#[cold]
pub fn over_number(records: &[Record], bounds: &[Interval], record: usize) -> u64 {
    let of = |a: u8| bounds[a as usize].ends();
    let low = match records[record] {
        Record::Sum(a, b) => of(a)[0] + of(b)[0],
        Record::Difference(a, b) => of(a)[0] - of(b)[1],
        Record::Product(a, b) => {
            let by = |end: i128| of(b).map(|other| end * other);
            of(a).map(by).concat().into_iter().min().unwrap()
        }
        Record::Square(a) => match of(a) {
            [low, _] if low >= 0 => low * low,
            [_, high] if high <= 0 => high * high,
            _ => 0,
        },
        _ => unreachable!("no other record can pass the limit"),
    };
    let within = i128::from(-LIMIT)..=i128::from(LIMIT);
    2 * record as u64 + u64::from(within.contains(&low))
}
