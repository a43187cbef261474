//! A zone sheet under construction, from faces and shapes.
use std::collections::HashMap;

/// Records under construction. Each call returns a record's number, and reuses an equal record that is already there.
#[derive(Clone, Default)]
pub struct Sheet {
    bytes: Vec<u8>,
    numbers: HashMap<Vec<u8>, u8>,
}

impl Sheet {
    pub fn count(&self) -> usize {
        self.numbers.len()
    }

    pub fn record(&mut self, kind: u8, rest: &[u8]) -> u8 {
        let mut made = vec![1 + rest.len() as u8, kind];
        made.extend(rest);
        let next = self.count();
        if let Some(&number) = self.numbers.get(&made) {
            return number;
        }
        assert!(next < 256, "a sheet has at most 256 records");
        self.bytes.extend(&made);
        self.numbers.insert(made, next as u8);
        next as u8
    }

    pub fn constant(&mut self, c: i32) -> u8 {
        self.record(1, &c.to_be_bytes())
    }

    /// x, y or z, by the axis 0, 1 or 2.
    pub fn coordinate(&mut self, axis: u8) -> u8 {
        self.record(2 + axis, &[])
    }

    pub fn sum(&mut self, a: u8, b: u8) -> u8 {
        self.record(5, &[a, b])
    }

    pub fn difference(&mut self, a: u8, b: u8) -> u8 {
        self.record(6, &[a, b])
    }

    pub fn product(&mut self, a: u8, b: u8) -> u8 {
        self.record(7, &[a, b])
    }

    pub fn face(&mut self, a: u8) -> u8 {
        self.record(16, &[a])
    }

    pub fn both(&mut self, p: u8, q: u8) -> u8 {
        self.record(17, &[p, q])
    }

    pub fn either(&mut self, p: u8, q: u8) -> u8 {
        self.record(18, &[p, q])
    }

    pub fn complement(&mut self, p: u8) -> u8 {
        self.record(19, &[p])
    }

    /// The face where a is at most b.
    pub fn not_above(&mut self, a: u8, b: u8) -> u8 {
        let over = self.difference(a, b);
        self.face(over)
    }

    pub fn at_most(&mut self, a: u8, c: i32) -> u8 {
        let limit = self.constant(c);
        self.not_above(a, limit)
    }

    pub fn at_least(&mut self, a: u8, c: i32) -> u8 {
        let limit = self.constant(c);
        self.not_above(limit, a)
    }

    /// The space between two planes across an axis.
    pub fn slab(&mut self, axis: u8, low: i32, high: i32) -> u8 {
        let a = self.coordinate(axis);
        let (from, to) = (self.at_least(a, low), self.at_most(a, high));
        self.both(from, to)
    }

    pub fn offset(&mut self, axis: u8, centre: i32) -> u8 {
        let (a, c) = (self.coordinate(axis), self.constant(centre));
        self.difference(a, c)
    }

    pub fn offset_squared(&mut self, axis: u8, centre: i32) -> u8 {
        let offset = self.offset(axis, centre);
        self.record(8, &[offset])
    }

    pub fn flat_distance_squared(&mut self, x: i32, y: i32) -> u8 {
        let (a, b) = (self.offset_squared(0, x), self.offset_squared(1, y));
        self.sum(a, b)
    }

    /// The points within a radius of an upright axis, at all heights.
    pub fn cylinder(&mut self, x: i32, y: i32, radius: i32) -> u8 {
        let square = self.flat_distance_squared(x, y);
        self.at_most(square, radius * radius)
    }

    pub fn sphere(&mut self, [x, y, z]: [i32; 3], radius: i32) -> u8 {
        let (flat, up) = (self.flat_distance_squared(x, y), self.offset_squared(2, z));
        let square = self.sum(flat, up);
        self.at_most(square, radius * radius)
    }

    pub fn finish(self) -> Vec<u8> {
        self.finish_as(1)
    }

    /// The sheet with this version, read or not. A version 2 face is where its operand is less than 0.
    pub fn finish_as(self, version: u8) -> Vec<u8> {
        let mut sheet = (1 + self.bytes.len() as u16).to_be_bytes().to_vec();
        sheet.push(version);
        sheet.extend(self.bytes);
        sheet
    }
}
