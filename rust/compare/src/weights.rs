//! Weights that sum to one, in every spelling; and as decimals, which they can no longer be.

use crate::marks::Mark;
use crate::random::Random;

/// A weight of one, in units.
pub const UNIT: u32 = 277_200;

/// What every weight was a multiple of before elevenths were taken.
pub const BEFORE_ELEVENTHS: u32 = 11;

/// All numbers that divide the unit.
pub const DIVISORS: [u32; 180] = {
    let mut divisors = [0; 180];
    let (mut found, mut number) = (0, 1);
    while number <= UNIT {
        if UNIT.is_multiple_of(number) {
            divisors[found] = number;
            found += 1;
        }
        number += 1;
    }
    assert!(found == 180);
    divisors
};

/// A weight: its units and its marks.
pub type Weight = (u32, Vec<Mark>);

/// All numbers that divide a hundred: what decimals of two digits are parts of.
const OF_A_HUNDRED: [u32; 9] = [1, 2, 4, 5, 10, 20, 25, 50, 100];

/// So many weights that sum to one.
pub fn weights(count: usize, random: &mut Random) -> Vec<Weight> {
    let below = if random.once_in(2) {
        random.pick(&OF_A_HUNDRED)
    } else {
        random.pick(&DIVISORS)
    };
    parts(count, below, random)
}

/// The same, each of which could be a decimal.
pub fn hundredths(count: usize, random: &mut Random) -> Vec<Weight> {
    let below = random.pick(&OF_A_HUNDRED);
    parts(count, below, random)
}

/// So many weights that sum to one, each so many parts of this number.
fn parts(count: usize, below: u32, random: &mut Random) -> Vec<Weight> {
    let mut cuts: Vec<u32> = (1..count)
        .map(|_| random.below(below as usize + 1) as u32)
        .collect();
    cuts.push(below);
    cuts.sort_unstable();
    let mut last = 0;
    cuts.iter()
        .map(|&cut| {
            let above = cut - last;
            last = cut;
            let units = above * (UNIT / below);
            (units, spelled(units, random))
        })
        .collect()
}

/// A spelling of a weight as a decimal, as it could be while those were taken; none if it takes more than two digits.
pub fn decimal(units: u32, random: &mut Random) -> Option<Mark> {
    if !units.is_multiple_of(UNIT / 100) {
        return None;
    }
    let hundredths = units / (UNIT / 100);
    let (whole, further) = (hundredths / 100, hundredths % 100);
    let text = if further.is_multiple_of(10) && random.once_in(2) {
        format!("{whole}.{}", further / 10)
    } else {
        format!("{whole}.{further:02}")
    };
    Some(Mark::new(text.as_bytes()))
}

/// One spelling of a weight.
pub fn spelled(units: u32, random: &mut Random) -> Vec<Mark> {
    if (units == 0 || units == UNIT) && !random.once_in(3) {
        return vec![Mark::number((units / UNIT) as usize)];
    }
    let mut common = greatest_common_divisor(units, UNIT);
    if random.once_in(3) {
        // Not in lowest terms.
        common = loop {
            let part = random.pick(&DIVISORS);
            if common.is_multiple_of(part) {
                break part;
            }
        };
    }
    fraction(units / common, UNIT / common)
}

/// The marks of a fraction.
pub fn fraction(above: u32, below: u32) -> Vec<Mark> {
    vec![
        Mark::number(above as usize),
        Mark::new(b"/"),
        Mark::number(below as usize),
    ]
}

fn greatest_common_divisor(mut a: u32, mut b: u32) -> u32 {
    while b != 0 {
        (a, b) = (b, a % b);
    }
    a
}
