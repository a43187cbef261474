//! "Root, depth, cubes".

/// A root and a depth, in limits or not: the low corner, k (the side is 2^k), and the depth d.
#[derive(Clone, Copy, Debug, PartialEq, Eq)]
pub struct Root {
    pub low: [i32; 3],
    pub k: u8,
    pub d: u8,
}

/// A cube: its low corner, its side and its level.
#[derive(Clone, Copy, Debug, PartialEq, Eq)]
pub struct Cube {
    pub low: [i64; 3],
    pub side: i64,
    pub level: u8,
}

/// Coordinates of a root range from minus this to this.
pub const FURTHEST: i64 = 1 << 20;

impl Root {
    pub fn in_limits(&self) -> bool {
        self.k <= 16 && self.lies_within() && self.d <= 10 && self.d <= self.k
    }

    /// Each low coordinate is at least -2^20 and each high one at most 2^20. Called only if k is in limits.
    fn lies_within(&self) -> bool {
        let side = 1i64 << self.k;
        self.low
            .iter()
            .all(|&low| i64::from(low) >= -FURTHEST && i64::from(low) + side <= FURTHEST)
    }

    /// The cube of level 0.
    pub fn cube(&self) -> Cube {
        Cube {
            low: self.low.map(i64::from),
            side: 1 << self.k,
            level: 0,
        }
    }
}

impl Cube {
    /// Child number = x half + 2 (y half) + 4 (z half), the low half being 0.
    pub fn child(&self, number: usize) -> Cube {
        let side = self.side / 2;
        let half = |axis: usize| ((number >> axis) & 1) as i64;
        Cube {
            low: [0, 1, 2].map(|axis| self.low[axis] + half(axis) * side),
            side,
            level: self.level + 1,
        }
    }

    /// The eight children in order.
    pub fn children(&self) -> [Cube; 8] {
        [0, 1, 2, 3, 4, 5, 6, 7].map(|number| self.child(number))
    }

    pub fn high(&self, axis: usize) -> i64 {
        self.low[axis] + self.side
    }

    /// For lookup and tiling the high planes are left out.
    pub fn holds(&self, point: [i32; 3]) -> bool {
        (0..3).all(|axis| {
            let at = i64::from(point[axis]);
            self.low[axis] <= at && at < self.high(axis)
        })
    }

    /// Whether the closed cubes, which include the high planes, share even a corner.
    pub fn touches(&self, other: &Cube) -> bool {
        (0..3).all(|axis| self.low[axis] <= other.high(axis) && other.low[axis] <= self.high(axis))
    }
}
