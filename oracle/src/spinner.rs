//! A spinner's points after document 01, apart from the original.

pub const MAX_DURATION: f64 = 3_600_000.0;

/// T: the half spins that are possible.
pub fn half_spins_possible(duration: f64) -> i32 {
    let seconds = duration / 1000.0;
    (seconds * (477.0 / 60.0) * 2.0) as i32
}

/// R: the half spins that complete the spinner. B is R + 3.
pub fn half_spins_required(duration: f64) -> i32 {
    let seconds = duration / 1000.0;
    (seconds * 3.0) as i32
}

/// The legacy bonus, by a walk over the half spins.
pub fn legacy_bonus(duration: f64) -> u64 {
    let before_bonus = half_spins_required(duration) + 3;
    let mut sum = 0;
    for i in 0..=half_spins_possible(duration) {
        if i > before_bonus && (i - before_bonus) % 2 == 0 {
            sum += 1100;
        } else if i > 1 && i % 2 == 0 {
            sum += 100;
        }
    }
    sum
}

/// The least duration at which the rising `count` reaches `value`. Bits of
/// doubles above 0 rise with the doubles, so they can be halved like numbers.
pub fn first_duration(count: fn(f64) -> i32, value: i32) -> f64 {
    let (mut below, mut reached) = (0.0_f64.to_bits(), MAX_DURATION.to_bits());
    while reached - below > 1 {
        let middle = below + (reached - below) / 2;
        if count(f64::from_bits(middle)) >= value {
            reached = middle;
        } else {
            below = middle;
        }
    }
    f64::from_bits(reached)
}

/// The bits of each duration where T or B changes, and of the doubles beside it.
pub fn edges() -> Vec<u64> {
    let mut bits = vec![0.0_f64.to_bits(), MAX_DURATION.to_bits()];
    for count in [half_spins_possible, half_spins_required] {
        for value in 1..=count(MAX_DURATION) {
            let edge = first_duration(count, value).to_bits();
            bits.extend([edge - 1, edge, edge + 1]);
        }
    }
    bits.retain(|&edge| edge <= MAX_DURATION.to_bits());
    bits.sort_unstable();
    bits.dedup();
    bits
}
