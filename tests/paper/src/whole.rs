//! Whole numbers of any size, with the operations that fractions need.

use std::cmp::Ordering;

/// A sign and a magnitude: its digits in base 2^32, least significant first, the last not 0. Zero is not negative.
#[derive(Clone, Debug, PartialEq, Eq)]
pub struct Whole {
    negative: bool,
    digits: Vec<u32>,
}

impl From<i64> for Whole {
    fn from(number: i64) -> Whole {
        let size = number.unsigned_abs();
        Whole::of(number < 0, vec![size as u32, (size >> 32) as u32])
    }
}

impl Whole {
    fn of(negative: bool, mut digits: Vec<u32>) -> Whole {
        while digits.last() == Some(&0) {
            digits.pop();
        }
        let negative = negative && !digits.is_empty();
        Whole { negative, digits }
    }

    pub fn is_positive(&self) -> bool {
        !self.negative && !self.digits.is_empty()
    }

    pub fn is_negative(&self) -> bool {
        self.negative
    }

    pub fn negative(&self) -> Whole {
        Whole::of(!self.negative, self.digits.clone())
    }

    pub fn plus(&self, other: &Whole) -> Whole {
        if self.negative == other.negative {
            return Whole::of(self.negative, sum(&self.digits, &other.digits));
        }
        match order(&self.digits, &other.digits) {
            Ordering::Less => Whole::of(other.negative, difference(&other.digits, &self.digits)),
            _ => Whole::of(self.negative, difference(&self.digits, &other.digits)),
        }
    }

    pub fn times(&self, other: &Whole) -> Whole {
        let digits = product(&self.digits, &other.digits);
        Whole::of(self.negative != other.negative, digits)
    }
}

fn digit(digits: &[u32], at: usize) -> u64 {
    digits.get(at).map_or(0, |&d| u64::from(d))
}

fn order(a: &[u32], b: &[u32]) -> Ordering {
    let longer = a.len().cmp(&b.len());
    longer.then_with(|| a.iter().rev().cmp(b.iter().rev()))
}

fn sum(a: &[u32], b: &[u32]) -> Vec<u32> {
    let mut carry = 0;
    let mut digits = Vec::new();
    for at in 0..=a.len().max(b.len()) {
        carry += digit(a, at) + digit(b, at);
        digits.push(carry as u32);
        carry >>= 32;
    }
    digits
}

/// a - b, where b is at most a.
fn difference(a: &[u32], b: &[u32]) -> Vec<u32> {
    let mut borrow = 0;
    let mut digits = Vec::new();
    for at in 0..a.len() {
        let left = (digit(a, at) + (1 << 32)) - digit(b, at) - borrow;
        digits.push(left as u32);
        borrow = u64::from(left >> 32 == 0);
    }
    digits
}

fn product(a: &[u32], b: &[u32]) -> Vec<u32> {
    let mut digits = vec![0; a.len() + b.len()];
    for (i, &by) in a.iter().enumerate() {
        let mut carry = 0;
        for at in 0..=b.len() {
            carry += u64::from(by) * digit(b, at) + u64::from(digits[i + at]);
            digits[i + at] = carry as u32;
            carry >>= 32;
        }
    }
    digits
}

#[cfg(test)]
mod tests {
    use super::*;

    /// Products of up to four of these have up to 4 digits of 32 bits.
    const SOME: [i64; 9] = [
        0,
        1,
        -1,
        7,
        -(1 << 31),
        (1 << 32) - 1,
        1 << 32,
        i64::MAX,
        i64::MIN,
    ];

    fn of(number: i128) -> Whole {
        let digits = (0..4).map(|at| (number.unsigned_abs() >> (32 * at)) as u32);
        Whole::of(number < 0, digits.collect())
    }

    /// Sums and products agree with those of 128 bits.
    #[test]
    fn agrees_with_128_bits() {
        for a in SOME {
            for b in SOME {
                let (wide_a, wide_b) = (i128::from(a), i128::from(b));
                assert_eq!(Whole::from(a).plus(&Whole::from(b)), of(wide_a + wide_b));
                assert_eq!(Whole::from(a).times(&Whole::from(b)), of(wide_a * wide_b));
                assert_eq!(Whole::from(a).negative(), of(-wide_a));
                assert_eq!(Whole::from(a).is_positive(), a > 0);
                assert_eq!(Whole::from(a).is_negative(), a < 0);
            }
        }
    }

    /// (a + b)^2 = a^2 + 2ab + b^2 and (a + b)(a - b) = a^2 - b^2, far beyond 128 bits.
    #[test]
    fn laws_of_large_numbers() {
        let large = SOME.map(|a| {
            let a = Whole::from(a);
            a.times(&a).times(&a).plus(&Whole::from(5)).times(&a)
        });
        for a in &large {
            for b in &large {
                let (sum, left) = (a.plus(b), a.plus(&b.negative()));
                let twice = a.times(b).plus(&a.times(b));
                let squares = a.times(a).plus(&b.times(b));
                assert_eq!(sum.times(&sum), squares.plus(&twice));
                assert_eq!(sum.times(&left), a.times(a).plus(&b.times(b).negative()));
            }
        }
    }
}
