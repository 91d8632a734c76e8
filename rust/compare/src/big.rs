//! Whole numbers of any size, as far as exact chances need them.

use std::cmp::Ordering;

/// A whole number, 0 or more.
#[derive(Clone, PartialEq, Eq, Debug)]
pub struct Big {
    /// Its digits to the base 2^64, the lowest first; the last is not zero.
    digits: Vec<u64>,
}

impl Big {
    /// Zero.
    pub const ZERO: Big = Big { digits: Vec::new() };

    /// A number.
    pub fn new(number: u64) -> Big {
        let digits = if number == 0 { vec![] } else { vec![number] };
        Big { digits }
    }

    /// Adds so many times another number.
    pub fn add_times(&mut self, other: &Big, times: u64) {
        if times > 0 {
            self.add_at(&other.digits, times, 0);
        }
    }

    /// Adds so many times some digits, moved up by some places.
    fn add_at(&mut self, other: &[u64], times: u64, places: usize) {
        let needed = other.len() + places;
        if self.digits.len() < needed {
            self.digits.resize(needed, 0);
        }
        let mut carry = 0;
        let (_, mine) = self.digits.split_at_mut(places);
        let mut mine = mine.iter_mut();
        for digit in other {
            let place = mine.next().expect("made long enough");
            let sum = u128::from(*digit) * u128::from(times) + u128::from(*place) + carry;
            *place = sum as u64;
            carry = sum >> 64;
        }
        for place in mine {
            if carry == 0 {
                break;
            }
            let sum = u128::from(*place) + carry;
            *place = sum as u64;
            carry = sum >> 64;
        }
        if carry > 0 {
            self.digits.push(carry as u64);
        }
    }

    /// So many times the number.
    pub fn times(&self, times: u64) -> Big {
        let mut product = Big::ZERO;
        product.add_times(self, times);
        product
    }

    /// The product of two numbers.
    pub fn multiplied(&self, other: &Big) -> Big {
        let mut product = Big::ZERO;
        if other.digits.is_empty() {
            return product;
        }
        for (place, digit) in self
            .digits
            .iter()
            .enumerate()
            .filter(|(_, digit)| **digit > 0)
        {
            product.add_at(&other.digits, *digit, place);
        }
        product
    }
}

impl Ord for Big {
    fn cmp(&self, other: &Big) -> Ordering {
        let highest_first = |big: &Big| big.digits.iter().rev().copied().collect::<Vec<u64>>();
        let lengths = self.digits.len().cmp(&other.digits.len());
        lengths.then_with(|| highest_first(self).cmp(&highest_first(other)))
    }
}

impl PartialOrd for Big {
    fn partial_cmp(&self, other: &Big) -> Option<Ordering> {
        Some(self.cmp(other))
    }
}
