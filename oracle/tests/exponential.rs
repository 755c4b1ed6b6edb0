//! The stand-in for `exp` has document 02's steps, and the original's curves run with it.

use oracle::{generate::random::Random, stand_in::exp, util::difficulty::logistic};

/// How far the stand-in is from the C library's, as a part of it.
fn error(v: f64) -> f64 {
    (exp(v) / v.exp() - 1.0).abs()
}

#[test]
fn it_is_near_the_c_librarys() {
    let mut r = Random::new(11, 0);
    for _ in 0..100_000 {
        // What the slider breaks ask for, 15 × (0.33 - x) with x from 0 to 1.
        let v = 15.0 * (0.33 - r.unit());
        assert!(error(v) < 1e-12, "{v}: {}", error(v));
        // The series of eight terms ends early for large numbers.
        let v = 1_400.0 * r.unit() - 700.0;
        assert!(error(v) < 2e-4, "{v}: {}", error(v));
    }
}

#[test]
fn it_has_these_edges() {
    assert_eq!(exp(0.0), 1.0);
    assert_eq!(exp(-0.0), 1.0);
    // Exactly -700 goes through the steps, and what lies below does not.
    assert!(exp(-700.0) > 0.0 && error(-700.0) < 2e-4);
    assert!(exp((-700.0_f64).next_up()) > 0.0);
    for v in [
        (-700.0_f64).next_down(),
        -701.0,
        f64::MIN,
        f64::NEG_INFINITY,
    ] {
        assert_eq!(exp(v).to_bits(), 0, "{v}");
    }
    for v in [1e4, f64::MAX, f64::INFINITY] {
        assert_eq!(exp(v), f64::INFINITY, "{v}");
    }
    assert!(exp(f64::NAN).is_nan() && exp(-f64::NAN).is_nan());
}

#[test]
fn it_is_eight_terms_and_ten_squarings() {
    let mut r = Random::new(12, 0);
    let drawn = (0..10_000).map(|_| 1_400.0 * r.unit() - 700.0);
    for v in [1.0, -3.75, 4.95, -10.05, -700.0].into_iter().chain(drawn) {
        let y = v / 1024.0;
        let h = 1.0 + (y / 8.0) * 1.0;
        let h = 1.0 + (y / 7.0) * h;
        let h = 1.0 + (y / 6.0) * h;
        let h = 1.0 + (y / 5.0) * h;
        let h = 1.0 + (y / 4.0) * h;
        let h = 1.0 + (y / 3.0) * h;
        let h = 1.0 + (y / 2.0) * h;
        let h = 1.0 + (y / 1.0) * h;
        let power = (0..10).fold(h, |power, _| power * power);
        assert_eq!(exp(v).to_bits(), power.to_bits(), "{v}");
    }
}

#[test]
fn the_originals_logistic_runs_with_it() {
    let mut differ = 0;
    for step in 0..=1_000 {
        let x = f64::from(step) / 1_000.0;
        let with = |exp: fn(f64) -> f64| 1.0 / (1.0 + exp(15.0 * (0.33 - x)));
        let due = with(exp);
        assert_eq!(logistic(x, 0.33, 15.0, None).to_bits(), due.to_bits());
        differ += u32::from(due != with(f64::exp));
    }
    assert!(differ > 500, "{differ}");
}
