//! Whole numbers of any size, from 0 up, and fractions of them. Just enough
//! to state the slab condition: adding, multiplying and comparing.

use std::cmp::Ordering;

/// A whole number as 32-bit digits, the lowest first, with no zero digit at
/// the top.
#[derive(Clone, Debug, PartialEq, Eq)]
pub struct Big {
    digits: Vec<u32>,
}

impl Big {
    pub fn new(number: u128) -> Big {
        let digits = (0..4)
            .map(|place| (number >> (32 * place)) as u32)
            .collect();
        Big::trimmed(digits)
    }

    /// The product of any count of numbers.
    pub fn product(numbers: &[u128]) -> Big {
        let mut result = Big::new(1);
        for &number in numbers {
            result = result.times(&Big::new(number));
        }
        result
    }

    pub fn plus(&self, other: &Big) -> Big {
        let mut digits = Vec::new();
        let mut carry: u64 = 0;
        for place in 0..self.digits.len().max(other.digits.len()) {
            let sum = u64::from(self.digit(place)) + u64::from(other.digit(place)) + carry;
            digits.push(sum as u32);
            carry = sum >> 32;
        }
        digits.push(carry as u32);
        Big::trimmed(digits)
    }

    pub fn times(&self, other: &Big) -> Big {
        let mut digits = vec![0u32; self.digits.len() + other.digits.len()];
        for (low, &a) in self.digits.iter().enumerate() {
            let mut carry: u64 = 0;
            for (high, &b) in other.digits.iter().enumerate() {
                let sum = u64::from(a) * u64::from(b) + u64::from(digits[low + high]) + carry;
                digits[low + high] = sum as u32;
                carry = sum >> 32;
            }
            digits[low + other.digits.len()] = carry as u32;
        }
        Big::trimmed(digits)
    }

    pub fn compare(&self, other: &Big) -> Ordering {
        let by_length = self.digits.len().cmp(&other.digits.len());
        by_length.then_with(|| self.digits.iter().rev().cmp(other.digits.iter().rev()))
    }

    fn digit(&self, place: usize) -> u32 {
        self.digits.get(place).copied().unwrap_or(0)
    }

    fn trimmed(mut digits: Vec<u32>) -> Big {
        while digits.last() == Some(&0) {
            digits.pop();
        }
        Big { digits }
    }
}

/// A fraction from 0 up; the bottom is not 0.
#[derive(Clone, Debug)]
pub struct Fraction {
    pub top: Big,
    pub bottom: Big,
}

impl Fraction {
    pub fn whole(number: u128) -> Fraction {
        Fraction {
            top: Big::new(number),
            bottom: Big::new(1),
        }
    }

    pub fn plus(&self, other: &Fraction) -> Fraction {
        let left = self.top.times(&other.bottom);
        let right = other.top.times(&self.bottom);
        Fraction {
            top: left.plus(&right),
            bottom: self.bottom.times(&other.bottom),
        }
    }

    pub fn at_most(&self, other: &Fraction) -> bool {
        let left = self.top.times(&other.bottom);
        let right = other.top.times(&self.bottom);
        left.compare(&right) != Ordering::Greater
    }
}
