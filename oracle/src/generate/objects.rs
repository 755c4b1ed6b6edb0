//! Objects of a generated map, without their starts.

use super::random::Random;
use crate::{
    map::{Nested, ObjectKind},
    reader::{MAX_LEGACY_BONUS, MAX_NESTED, MAX_OBJECTS},
    spinner::{self, MAX_DURATION, half_spins_possible, half_spins_required},
    values::MAX_UNCHANGED_COMBO,
};

#[derive(Copy, Clone, Debug)]
pub enum Shape {
    /// An object count in this range.
    Objects(u64, u64),
    /// Max combo where the original's product leaves its type, or somewhat above.
    ComboEdge,
    /// The same, or any combo up to the most that a map can have.
    Marathon,
    /// A few sliders of up to 1,000 nested items.
    LongNested,
    /// A legacy bonus as high as it may be.
    BonusLimit,
}

/// Both sides of the combo where the original's product leaves its type.
const EDGE: (u64, u64) = (
    MAX_UNCHANGED_COMBO as u64 - 1,
    MAX_UNCHANGED_COMBO as u64 + 4,
);

/// 8,192 sliders of 1,000 nested items and a head.
const MAX_COMBO: u64 = MAX_OBJECTS as u64 * (MAX_NESTED as u64 + 1);

/// Ranges of the nested items of a map's sliders: of few objects, and of thousands.
const LENGTHS: [(u64, u64); 4] = [(600, 1_000), (600, 1_000), (36, 60), (10, 14)];

/// Weights of circles, sliders and spinners.
const MIXES: [[u64; 3]; 10] = [
    [1, 0, 0],
    [0, 1, 0],
    [0, 0, 1],
    [1, 1, 0],
    [1, 0, 1],
    [0, 3, 1],
    [1, 1, 1],
    [6, 3, 1],
    [6, 4, 0],
    [20, 9, 1],
];

pub fn kinds(r: &mut Random, shape: Shape) -> Vec<ObjectKind> {
    match shape {
        Shape::Objects(low, high) => mixed(r, low, high),
        Shape::ComboEdge => {
            let combo = r.weighted(&[(7, EDGE), (2, (46_346, 60_000)), (1, (60_001, 80_000))]);
            of_combo(r, combo)
        }
        Shape::Marathon => {
            let combo = r.weighted(&[
                (40, EDGE),
                (40, (46_346, 200_000)),
                (15, (200_001, 1_000_000)),
                (4, (1_000_001, MAX_COMBO)),
                (1, (MAX_COMBO, MAX_COMBO)),
            ]);
            of_combo(r, combo)
        }
        Shape::LongNested => (0..r.between(1, 6)).map(|_| long_slider(r)).collect(),
        Shape::BonusLimit => bonus_limit(r),
    }
}

fn mixed(r: &mut Random, low: u64, high: u64) -> Vec<ObjectKind> {
    let count = r.between(low, high);
    let mix = r.pick(&MIXES);
    let longest = r.weighted(&[
        (30, 3),
        (40, 6),
        (20, 20),
        (if count > 100 { 0 } else { 3 }, 120),
    ]);
    let mut bonus = 0;
    let mut kind = |r: &mut Random| match r.weighted(&[(mix[0], 0), (mix[1], 1), (mix[2], 2)]) {
        0 => ObjectKind::Circle,
        1 => {
            let length = r.between(1, longest);
            slider(r, length as usize)
        }
        _ => {
            let duration = duration(r);
            let more = bonus + spinner::legacy_bonus(duration);
            if more > MAX_LEGACY_BONUS {
                return ObjectKind::Circle;
            }
            bonus = more;
            ObjectKind::Spinner { duration }
        }
    };
    (0..count).map(|_| kind(r)).collect()
}

/// A slider with that many nested items.
pub fn slider(r: &mut Random, length: usize) -> ObjectKind {
    let ticks = r.pick(&[0, 30, 50, 90, 100]);
    let mut nested: Vec<_> = (1..length)
        .map(|_| {
            if r.percent(ticks) {
                Nested::Tick
            } else {
                Nested::Repeat
            }
        })
        .collect();
    nested.push(Nested::Tail);
    ObjectKind::Slider(nested)
}

fn long_slider(r: &mut Random) -> ObjectKind {
    let length = r.pick(&[MAX_NESTED, MAX_NESTED - 1, 900, 500]);
    slider(r, length)
}

/// A duration, mostly beside a change of T or B. Long ones are rare: each costs a long walk.
pub fn duration(r: &mut Random) -> f64 {
    match r.below(100) {
        0..=29 => {
            let value = r.between(1, 120) as i32;
            beside(r, spinner::first_duration(half_spins_possible, value))
        }
        30..=49 => {
            let value = r.between(1, 40) as i32;
            beside(r, spinner::first_duration(half_spins_required, value))
        }
        50 => {
            let count = r.pick(&[half_spins_possible as fn(f64) -> i32, half_spins_required]);
            let value = r.between(1, count(MAX_DURATION) as u64) as i32;
            beside(r, spinner::first_duration(count, value))
        }
        51 => r.pick(&[MAX_DURATION.next_down(), MAX_DURATION]),
        52..=59 => r.pick(&[0.0, -0.0, 5e-324, 0.5, 62.5, 1000.0, 1400.0]),
        60..=69 => r.unit() * 20_000.0,
        _ => r.below(5_000) as f64,
    }
}

/// The double itself, the one before or the one after, within the limit.
fn beside(r: &mut Random, edge: f64) -> f64 {
    r.pick(&[edge.next_down(), edge, edge.next_up()])
        .min(MAX_DURATION)
}

/// Objects whose combo is in this range together.
fn of_combo(r: &mut Random, (low, high): (u64, u64)) -> Vec<ObjectKind> {
    let mut left = r.between(low, high);
    // Sliders so long that no more objects are needed than a map has.
    let (least, most) = r.pick(&LENGTHS);
    let least = least.max(left.div_ceil(MAX_OBJECTS as u64) - 1);
    let most = most.max(least);
    let others = r.pick(&[0, 0, 10, 50]);
    let mut kinds = Vec::new();
    while left > 0 {
        let places = (MAX_OBJECTS - kinds.len()) as u64;
        let has_room = left - 1 <= (places - 1) * (least + 1);
        // The last one takes the rest.
        let combo = if has_room && r.percent(others) {
            1
        } else {
            left.min(r.between(least, most) + 1)
        };
        kinds.push(match combo {
            1 if r.percent(20) => ObjectKind::Spinner {
                duration: r.below(5_000) as f64,
            },
            1 => ObjectKind::Circle,
            _ => slider(r, combo as usize - 1),
        });
        left -= combo;
    }
    kinds
}

/// Spinners whose legacy bonus leaves no room for another 100 points.
fn bonus_limit(r: &mut Random) -> Vec<ObjectKind> {
    let mut kinds = Vec::new();
    let mut left = MAX_LEGACY_BONUS;
    let mut duration = MAX_DURATION;
    while duration > 100.0 {
        let bonus = spinner::legacy_bonus(duration);
        if bonus <= left && bonus > 0 {
            left -= bonus;
            kinds.push(ObjectKind::Spinner { duration });
        } else {
            duration *= 0.9 - 0.1 * r.unit();
        }
    }
    kinds
}
