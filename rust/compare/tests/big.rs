//! Large numbers against those that a processor has.

use compare::big::Big;
use compare::random::Random;

/// A number of up to 128 bits.
fn big(number: u128) -> Big {
    let mut sum = Big::new((number >> 64) as u64).multiplied(&power_of_two(64));
    sum.add_times(&Big::new(number as u64), 1);
    sum
}

fn power_of_two(exponent: usize) -> Big {
    (0..exponent).fold(Big::new(1), |power, _| power.times(2))
}

#[test]
fn as_in_128_bits() {
    let mut random = Random::new(7, 7);
    for _ in 0..2_000 {
        let shifts = [random.below(64), random.below(64), random.below(64)];
        let [a, b, c] = shifts.map(|shift| random.next() >> shift);
        let product = u128::from(a) * u128::from(b);
        assert_eq!(Big::new(a).times(b), big(product));
        assert_eq!(Big::new(a).multiplied(&Big::new(b)), big(product));
        let (half, other) = (product / 2, u128::from(c) * u128::from(a) / 2);
        let mut sum = big(half);
        sum.add_times(&big(other), 1);
        assert_eq!(sum, big(half + other));
        assert_eq!(big(half).cmp(&big(other)), half.cmp(&other));
        assert_eq!(big(half).cmp(&big(half)), half.cmp(&half));
    }
}

#[test]
fn above_128_bits() {
    // (2^n - 1) * (2^n + 1) + 1 is 2^2n.
    for exponent in [1, 63, 64, 65, 127, 128, 129, 640] {
        let power = power_of_two(exponent);
        let mut above = power.clone();
        above.add_times(&Big::new(1), 1);
        let below = (0..exponent).fold(Big::ZERO, |sum, _| {
            let mut next = sum.times(2);
            next.add_times(&Big::new(1), 1);
            next
        });
        let mut product = below.multiplied(&above);
        assert_eq!(product, above.multiplied(&below));
        assert!(below < power && power < above && product < power_of_two(2 * exponent));
        product.add_times(&Big::new(1), 1);
        assert_eq!(product, power_of_two(2 * exponent));
    }
    assert_eq!(Big::ZERO, Big::new(0));
    assert_eq!(power_of_two(200).multiplied(&Big::ZERO), Big::ZERO);
    assert_eq!(power_of_two(200).times(0), Big::ZERO);
}
