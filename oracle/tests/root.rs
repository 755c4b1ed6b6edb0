//! The stand-in's root is the double nearest the exact root, by squares of whole numbers.

use oracle::{generate::random::Random, stand_in::power_five_halves};

/// A normal double as m × 2^e with m of 53 bits.
fn parts(v: f64) -> (u128, i32) {
    let bits = v.to_bits();
    let exponent = (bits >> 52) as i32;
    (
        u128::from(bits & ((1 << 52) - 1) | 1 << 52),
        exponent - 1075,
    )
}

/// Whether no other double is as near to the root of `v` as `root`.
fn is_nearest(v: f64, root: f64) -> bool {
    let (m, e) = parts(v);
    let (r, f) = parts(root);
    // With root = r × 2^f, the neighbours' midpoints are (2r ± 1) × 2^(f - 1).
    let shift = e - 2 * f + 2;
    assert!((0..=70).contains(&shift));
    let four_squares = m << shift;
    (2 * r - 1).pow(2) < four_squares && four_squares < (2 * r + 1).pow(2)
}

#[test]
fn sqrt_is_the_nearest_double() {
    let mut r = Random::new(7, 0);
    for _ in 0..200_000 {
        let v = r.between(2, 463_410) as f64 / r.between(1, 46_341) as f64;
        assert!(is_nearest(v, v.sqrt()), "{v}");
        let v = f64::from_bits(1023 << 52 | r.next_u64() >> 12);
        assert!(is_nearest(v, v.sqrt()), "{v}");
    }
}

#[test]
fn the_stand_in_is_two_products() {
    assert_eq!(power_five_halves(4.0), 32.0);
    let v = 46_340.9_f64;
    assert_eq!(power_five_halves(v), (v * v) * v.sqrt());
}
