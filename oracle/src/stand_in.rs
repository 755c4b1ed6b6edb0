//! The papers' steps for what the original takes from the C library.

/// Document 01's form of `powf(v, 2.5)`: (v × v) × root(v).
///
/// `f64::sqrt` is the double nearest the exact root: the language promises
/// IEEE 754's `squareRoot`, rounded once. So it is 01's root as it stands.
pub fn power_five_halves(v: f64) -> f64 {
    (v * v) * v.sqrt()
}

/// Document 02's form of `exp(v)`: 0 below -700; else eight terms of the series at v / 1024, from
/// the last on, and ten squarings.
///
/// What is not a number passes the test and stays so.
pub fn exp(v: f64) -> f64 {
    if v < -700.0 {
        return 0.0;
    }
    let y = v / 1024.0;
    let mut h = 1.0;
    for j in (1..=8).rev() {
        h = 1.0 + (y / f64::from(j)) * h;
    }
    for _ in 0..10 {
        h *= h;
    }
    h
}
