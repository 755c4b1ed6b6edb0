//! Plays of a generated map. None exceeds its map.

use super::{objects::Shape, random::Random};
use crate::{
    map::{MapFile, Origin, Play},
    reader::MAX_CLOCK_RATE,
    values::{Attributes, MAX_UNCHANGED_COMBO, MissSteps, Original},
};

pub fn plays(r: &mut Random, map: &MapFile, shape: Shape) -> Vec<Play> {
    let count = match shape {
        Shape::BonusLimit => r.between(0, 2),
        _ if map.objects.len() > 500 => r.between(1, 4),
        _ => r.weighted(&[(3, 0), (50, 3), (45, 6), (2, 30)]),
    };
    let original = Original::new(map);
    (0..count).map(|_| play(r, &original)).collect()
}

/// A play of any passed count.
pub fn play(r: &mut Random, original: &Original) -> Play {
    let passed = passed(r, original.object_count() as u64);
    play_of(r, original, passed)
}

/// A play of this passed count.
pub fn play_of(r: &mut Random, original: &Original, passed: u16) -> Play {
    let attributes = original.attributes(passed.into());
    let mut play = Play {
        passed,
        origin: r.weighted(&[
            (40, Origin::Stable),
            (25, Origin::WithSliderAcc),
            (35, Origin::WithoutSliderAcc),
        ]),
        flags: flags(r),
        clock_rate: clock_rate(r),
        ..Play::default()
    };
    hits(r, &attributes, &mut play);
    judgements(r, attributes.objects, &mut play);
    play.max_combo = max_combo(r, &attributes, &play);
    play.score = score(r, &attributes, &mut play);
    play
}

fn passed(r: &mut Random, count: u64) -> u16 {
    let passed = match r.below(100) {
        0..=2 => 0,
        3..=5 => count.saturating_sub(1),
        6..=35 => r.between(0, count),
        36..=40 => count + r.between(1, 20),
        41..=43 => u64::from(u16::MAX),
        _ => count,
    };
    passed as u16
}

fn flags(r: &mut Random) -> u16 {
    match r.below(10) {
        0..=2 => 0,
        3 => 1 << r.below(9),
        4 | 5 => r.below(512) as u16,
        _ => (0..9).map(|bit| u16::from(r.percent(15)) << bit).sum(),
    }
}

fn clock_rate(r: &mut Random) -> f64 {
    match r.below(10) {
        0..=3 => 1.0,
        4 => r.pick(&[
            1.0_f64.next_down(),
            1.0_f64.next_up(),
            5e-324,
            MAX_CLOCK_RATE,
        ]),
        5 => r.pick(&[0.5, 0.75, 1.5, 2.0]),
        6 | 7 => 1.0 - r.unit() * 0.9,
        _ => 1.0 + r.unit(),
    }
}

/// Tick and end hits: within the map for slider accuracy, anything otherwise.
fn hits(r: &mut Random, a: &Attributes, play: &mut Play) {
    let large = a.ticks + a.repeats;
    if play.origin == Origin::WithSliderAcc {
        play.large_tick_hits = up_to(r, large);
        play.slider_end_hits = up_to(r, a.sliders);
        play.small_tick_hits = r.pick(&[0, 1, u32::MAX]);
    } else {
        play.large_tick_hits = around(r, large + a.sliders);
        play.small_tick_hits = around(r, a.sliders);
        play.slider_end_hits = around(r, a.sliders);
    }
}

/// A number from 0 to `most`, often next to an end.
fn up_to(r: &mut Random, most: u32) -> u32 {
    match r.below(6) {
        0 => 0,
        1 | 2 => most,
        3 => most.saturating_sub(1),
        _ => r.between(0, most.into()) as u32,
    }
}

fn around(r: &mut Random, most: u32) -> u32 {
    match r.below(6) {
        0 => u32::MAX,
        1 => most + r.between(1, 3) as u32,
        _ => up_to(r, most),
    }
}

fn judgements(r: &mut Random, objects: u32, play: &mut Play) {
    let objects = u64::from(objects);
    let mut left = match r.below(100) {
        0..=4 => 0,
        5..=24 => r.between(objects.min(1), objects),
        _ => objects,
    };
    let mut take = |r: &mut Random, most: u64| {
        let taken = r.between(0, most.min(left));
        left -= taken;
        taken as u16
    };
    let (misses, others) = match r.below(10) {
        0 | 1 => (0, 0),
        2 => (0, 5),
        3..=5 => (4, 8),
        6 | 7 => (12, 20),
        _ => (objects, objects),
    };
    play.misses = take(r, misses);
    play.n50 = take(r, others);
    play.n100 = take(r, others);
    play.n300 = left as u16;
    if r.percent(3) {
        (play.misses, play.n300) = (play.n300, play.misses);
    }
}

/// A max combo, often beside a threshold of an estimate.
fn max_combo(r: &mut Random, a: &Attributes, play: &Play) -> u32 {
    let most = i64::from(a.max_combo);
    let sliders = i64::from(a.sliders);
    let dropped = sliders - i64::from(play.slider_end_hits);
    let combo = match r.below(16) {
        0 | 1 => most,
        2 => most - 1,
        3 => r.pick(&[0, 0, 1, 2]),
        // The classic full combo threshold is most - 0.1 × sliders.
        4 | 5 => most - sliders / 10 - r.pick(&[-1, 0, 1, 2]),
        6 if play.origin == Origin::WithSliderAcc => most - dropped - r.pick(&[-1, 0, 1]),
        // Two lost combo may be a slider break.
        7 => most - 2 * r.between(0, a.sliders as u64 + 1) as i64 - r.pick(&[0, 1]),
        8 => most - r.between(0, 6) as i64,
        _ => r.between(0, most as u64) as i64,
    };
    combo.clamp(0, most) as u32
}

/// A score, or none. Judgements and combo are drawn anew where the formula's
/// inside is wanted and cannot be reached with the first ones.
fn score(r: &mut Random, a: &Attributes, play: &mut Play) -> Option<u32> {
    if play.origin == Origin::WithSliderAcc || play.judgements() == 0 {
        return r.percent(40).then(|| r.next_u64() as u32);
    }
    match r.below(100) {
        0..=11 => None,
        12..=14 => Some(0),
        15..=19 => Some(r.between(1, 1_000) as u32),
        20..=22 => Some(u32::MAX),
        23..=25 => Some(r.next_u64() as u32),
        26..=29 => {
            let full = a.accuracy_score as f64 + a.combo_score as f64 + a.legacy_bonus as f64;
            Some((full * r.unit()) as u32)
        }
        30..=37 => Some(beside_steps(r, a, play)),
        _ => Some(inside(r, a, play)),
    }
}

/// A score next to where the estimate's branches part.
fn beside_steps(r: &mut Random, a: &Attributes, play: &Play) -> u32 {
    let steps = a.miss_steps(play);
    let of_remaining = steps.score_of_remaining_combo;
    let parts = [0.0, of_remaining, of_remaining / steps.maximum_miss_count];
    let place = steps.score_at_max_combo + r.pick(&parts);
    (place + r.pick(&[-1.0, 0.0, 1.0])) as u32
}

/// A score whose estimate lies between 1 and its cap, if these judgements or the next allow it.
fn inside(r: &mut Random, a: &Attributes, play: &mut Play) -> u32 {
    for _ in 0..6 {
        let steps = a.miss_steps(play);
        let most = steps.maximum_miss_count;
        if let Some(least) = least_misses(&steps)
            && most > least
            && play.judgements() > 0
        {
            return score_of(&steps, least + (most - least) * r.unit());
        }
        judgements(r, a.objects, play);
        play.max_combo = if a.max_combo > MAX_UNCHANGED_COMBO {
            short_combo(r, a.max_combo)
        } else {
            max_combo(r, a, play)
        };
    }
    r.next_u64() as u32 % 100_000
}

/// The least estimate from 1 on that a score gives, where one does: on a map of much combo the rest
/// of the score is often more than a score can say.
fn least_misses(steps: &MissSteps) -> Option<f64> {
    let room = f64::from(u32::MAX) - steps.score_at_max_combo;
    let of_remaining = steps.score_of_remaining_combo;
    (of_remaining > 0.0 && room > 0.0).then(|| (of_remaining / room).max(1.0))
}

/// A combo of any size: the score of a long one is above all scores on a map of much combo.
fn short_combo(r: &mut Random, most: u32) -> u32 {
    let most = most >> r.below(10);
    r.between(0, most.into()) as u32
}

/// The score whose estimate is nearest that many misses, where these lie between 1 and their cap.
pub fn score_of(steps: &MissSteps, misses: f64) -> u32 {
    (steps.score_at_max_combo + steps.score_of_remaining_combo / misses).round() as u32
}
