//! "Fractions": what a sheet means at a point.

use crate::root::Cube;
use crate::sheet::{
    Record::*,
    Sheet,
    Version::{self, *},
};
use crate::whole::Whole;

/// Three whole numerators over one positive whole denominator.
#[derive(Clone, Copy, Debug, PartialEq, Eq)]
pub struct Point {
    pub numerators: [i64; 3],
    pub denominator: i64,
}

/// A whole numerator over a power of the point's denominator.
#[derive(Clone, Debug)]
struct Fraction {
    numerator: Whole,
    power: u32,
}

/// What a record is at a point.
#[derive(Clone, Debug)]
enum Value {
    Number(Fraction),
    Holds(bool),
}

/// What all records are at a point.
pub struct Values(Vec<Value>);

impl Point {
    pub fn whole(coordinates: [i32; 3]) -> Point {
        Point {
            numerators: coordinates.map(i64::from),
            denominator: 1,
        }
    }

    /// Whether it is in the closed cube.
    pub fn is_in_closed(&self, cube: &Cube) -> bool {
        let n = i128::from(self.denominator);
        (0..3).all(|axis| {
            let at = i128::from(self.numerators[axis]);
            i128::from(cube.low[axis]) * n <= at && at <= i128::from(cube.high(axis)) * n
        })
    }

    /// A whole point's coordinates are over the power 0, so that their powers stay 0.
    fn coordinate(&self, axis: usize) -> Fraction {
        Fraction {
            numerator: Whole::from(self.numerators[axis]),
            power: u32::from(self.denominator != 1),
        }
    }

    fn sum(&self, a: &Fraction, b: &Fraction) -> Fraction {
        let power = a.power.max(b.power);
        Fraction {
            numerator: self.over(a, power).plus(&self.over(b, power)),
            power,
        }
    }

    /// The numerator of the same fraction over a greater power.
    fn over(&self, a: &Fraction, power: u32) -> Whole {
        let n = Whole::from(self.denominator);
        (a.power..power).fold(a.numerator.clone(), |numerator, _| numerator.times(&n))
    }
}

fn product(a: &Fraction, b: &Fraction) -> Fraction {
    Fraction {
        numerator: a.numerator.times(&b.numerator),
        power: a.power + b.power,
    }
}

fn negative(a: &Fraction) -> Fraction {
    Fraction {
        numerator: a.numerator.negative(),
        power: a.power,
    }
}

/// Kind 16: a is at most 0 in version 1, and less than 0 in version 2.
fn satisfies(version: Version, a: &Whole) -> bool {
    match version {
        One => !a.is_positive(),
        Two => a.is_negative(),
    }
}

impl Values {
    /// Computes all records of a sheet.
    pub fn at(sheet: &Sheet, point: &Point) -> Values {
        let mut values = Values(Vec::new());
        for record in &sheet.records {
            let number = |a: usize| values.number(a);
            let holds = |p: usize| values.holds(p);
            let value = match *record {
                Constant(c) => Value::Number(Fraction {
                    numerator: Whole::from(i64::from(c)),
                    power: 0,
                }),
                X => Value::Number(point.coordinate(0)),
                Y => Value::Number(point.coordinate(1)),
                Z => Value::Number(point.coordinate(2)),
                Sum(a, b) => Value::Number(point.sum(number(a), number(b))),
                Difference(a, b) => Value::Number(point.sum(number(a), &negative(number(b)))),
                Product(a, b) => Value::Number(product(number(a), number(b))),
                Square(a) => Value::Number(product(number(a), number(a))),
                Face(a) => Value::Holds(satisfies(sheet.version, &number(a).numerator)),
                Both(p, q) => Value::Holds(holds(p) && holds(q)),
                Either(p, q) => Value::Holds(holds(p) || holds(q)),
                Complement(p) => Value::Holds(!holds(p)),
            };
            values.0.push(value);
        }
        values
    }

    fn number(&self, a: usize) -> &Fraction {
        match &self.0[a] {
            Value::Number(fraction) => fraction,
            Value::Holds(_) => panic!("record {a} is logical"),
        }
    }

    /// Whether an arithmetic record is 0 at the point.
    pub fn is_zero(&self, a: usize) -> bool {
        let numerator = &self.number(a).numerator;
        !numerator.is_positive() && !numerator.is_negative()
    }

    /// Whether the point satisfies a logical record.
    pub fn holds(&self, p: usize) -> bool {
        match self.0[p] {
            Value::Holds(holds) => holds,
            Value::Number(_) => panic!("record {p} is arithmetic"),
        }
    }

    /// Whether the point is inside the solid.
    pub fn is_inside(&self) -> bool {
        self.holds(self.0.len() - 1)
    }
}

#[cfg(test)]
mod tests {
    use super::*;
    use crate::sheet::VERSIONS;

    fn point(numerators: [i64; 3], denominator: i64) -> Point {
        Point {
            numerators,
            denominator,
        }
    }

    /// x² at most 2 around its root, or less than 2: 14142/10000 is inside and 14143/10000 is not.
    #[test]
    fn exact_beside_a_root() {
        for version in VERSIONS {
            let records = vec![X, Square(0), Constant(2), Difference(1, 2), Face(3)];
            let sheet = Sheet { version, records };
            let is_inside = |x| Values::at(&sheet, &point([x, 0, 0], 10_000)).is_inside();
            assert!(is_inside(14_142) && !is_inside(14_143));
            assert!(is_inside(-14_142) && !is_inside(-14_143));
        }
    }

    /// A point on a face satisfies it in version 1 and not in version 2: x + y = z at 1/3, 1/6, 1/2. One step off the face
    /// the versions agree.
    #[test]
    fn on_a_face_and_beside() {
        for (version, on_face) in [(One, true), (Two, false)] {
            let sum_less_z = vec![X, Y, Z, Sum(0, 1), Difference(3, 2)];
            let logical = [Face(4), Complement(5), Either(5, 6), Both(5, 6)];
            let records = [sum_less_z.as_slice(), &logical].concat();
            let sheet = Sheet { version, records };
            let at = |x| Values::at(&sheet, &point([x, 10_000, 30_000], 60_000));
            let (outside, on, inside) = (at(20_001), at(20_000), at(19_999));
            assert!(on.is_zero(4) && !outside.is_zero(4) && !inside.is_zero(4));
            assert_eq!([on.holds(5), on.holds(6)], [on_face, !on_face]);
            assert!(!outside.holds(5) && outside.holds(6));
            assert!(inside.holds(5) && !inside.holds(6));
            for any in [outside, on, inside] {
                assert!(any.holds(7) && !any.is_inside());
            }
        }
    }

    /// Closed cubes include their high planes, and nothing beyond.
    #[test]
    fn in_a_closed_cube() {
        let cube = Cube {
            low: [-1, 0, 4],
            side: 2,
            level: 3,
        };
        assert!(point([3, 6, 18], 3).is_in_closed(&cube));
        assert!(point([-3, 0, 12], 3).is_in_closed(&cube));
        assert!(!point([4, 6, 18], 3).is_in_closed(&cube));
        assert!(!point([-3, -1, 12], 3).is_in_closed(&cube));
    }
}
