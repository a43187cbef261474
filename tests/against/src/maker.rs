//! Makes sheets record by record.

use paper::sheet::Record::{self, *};

/// The records so far. Each method returns a record's number.
#[derive(Default)]
pub struct Maker {
    pub records: Vec<Record>,
    /// Whether to reuse an equal record that is already there.
    pub share: bool,
}

impl Maker {
    pub fn add(&mut self, record: Record) -> usize {
        let there = self.records.iter().position(|other| *other == record);
        match there {
            Some(number) if self.share => number,
            _ => {
                self.records.push(record);
                self.records.len() - 1
            }
        }
    }

    /// A second record equal to one that is there. Of a face it is another face, over the same operand.
    pub fn again(&mut self, number: usize) -> usize {
        self.records.push(self.records[number].clone());
        self.records.len() - 1
    }

    pub fn constant(&mut self, c: i64) -> usize {
        self.add(Constant(c as i32))
    }

    pub fn axis(&mut self, axis: usize) -> usize {
        self.add([X, Y, Z][axis].clone())
    }

    pub fn at_most(&mut self, a: usize, b: usize) -> usize {
        let difference = self.add(Difference(a, b));
        self.add(Face(difference))
    }

    /// The points from low to high along an axis.
    pub fn between(&mut self, axis: usize, low: i64, high: i64) -> usize {
        let (low, high) = (self.constant(low), self.constant(high));
        let at = self.axis(axis);
        let from = self.at_most(low, at);
        let to = self.at_most(at, high);
        self.add(Both(from, to))
    }

    /// A rectangle of the floor, at all heights.
    pub fn rectangle(&mut self, x: [i64; 2], y: [i64; 2]) -> usize {
        let over_x = self.between(0, x[0], x[1]);
        let over_y = self.between(1, y[0], y[1]);
        self.add(Both(over_x, over_y))
    }

    /// The squared distance from a centre, along as many axes as the centre has.
    pub fn distance_squared(&mut self, centre: &[i64]) -> usize {
        let mut total = None;
        for (axis, &at) in centre.iter().enumerate() {
            let (along, from) = (self.axis(axis), self.constant(at));
            let offset = self.add(Difference(along, from));
            let square = self.add(Square(offset));
            total = Some(total.map_or(square, |so_far| self.add(Sum(so_far, square))));
        }
        total.expect("at least one axis")
    }

    /// Within a radius of a centre: a cylinder for two axes, a sphere for three.
    pub fn round(&mut self, centre: &[i64], radius: i64) -> usize {
        let squared = self.distance_squared(centre);
        let radius = self.constant(radius);
        let limit = self.add(Square(radius));
        self.at_most(squared, limit)
    }

    /// (x²+y²+z²+R²-r²)² - 4R²(x²+y²) at most 0, about a centre.
    pub fn torus(&mut self, centre: [i64; 3], large: i64, small: i64) -> usize {
        let (large, small, four) = (self.constant(large), self.constant(small), self.constant(4));
        let (large, small) = (self.add(Square(large)), self.add(Square(small)));
        let flat = self.distance_squared(&centre[..2]);
        let all = self.distance_squared(&centre);
        let radii = self.add(Difference(large, small));
        let inner = self.add(Sum(all, radii));
        let left = self.add(Square(inner));
        let factor = self.add(Product(four, large));
        let right = self.add(Product(factor, flat));
        self.at_most(left, right)
    }

    /// The records, with this one made the last and so the solid.
    pub fn with_solid(mut self, solid: usize) -> Vec<Record> {
        if solid + 1 != self.records.len() {
            self.records.push(self.records[solid].clone());
        }
        self.records
    }
}
