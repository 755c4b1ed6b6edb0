//! The score of a play, from the sums of its passed objects.

use oracle::{
    Beatmap,
    given::Factors,
    map::{Origin, Play, Settings},
    util::ruleset_ext::calculate_difficulty_peppy_stars,
    values::{Attributes, Estimates, SliderBreaks},
};

use super::entry::{
    ACCURACY, CIRCLES, COMBO, COMBOS_BEFORE, Entry, FIRST_IS_HIT, LEGACY_BONUS, OBJECTS, REPEATS,
    SLIDERS, SPINNER_SCORE, SPINNERS, STANDARDISED_BONUS, TICKS,
};

/// In the oracle's types, since its estimates start from them.
pub struct Score {
    pub attributes: Attributes,
    pub estimates: Estimates,
}

pub struct BreaksScore {
    pub score: Score,
    pub breaks: SliderBreaks,
}

impl Score {
    /// 14 for factors out of range.
    pub fn with_breaks(self, play: &Play, factors: Factors) -> Result<BreaksScore, u8> {
        let is_factor = |factor: f64| (0.0..=10.0).contains(&factor);
        if !is_factor(factors.aim) || !is_factor(factors.speed) {
            return Err(14);
        }
        let breaks = self
            .attributes
            .slider_breaks(play, &self.estimates, factors);
        Ok(BreaksScore {
            score: self,
            breaks,
        })
    }
}

/// The attributes of the objects of a sum; `ends` are the starts of the map's first object and of the last one passed.
pub fn attributes(
    sum: &Entry,
    settings: &Settings,
    breaks: &[f64],
    ends: Option<[f64; 2]>,
) -> Attributes {
    let drain = ends.map_or(0, |[first, last]| drain_len(first, last, breaks));
    let multiplier = multiplier(settings, sum[OBJECTS] as i32, drain);
    let combo_points = 12 * (sum[COMBOS_BEFORE] + sum[FIRST_IS_HIT] - sum[OBJECTS]);
    Attributes {
        objects: sum[OBJECTS] as u32,
        multiplier,
        accuracy_score: sum[ACCURACY] as i32,
        combo_score: combo_points as i64 * i64::from(multiplier),
        bonus_ratio: bonus_ratio(sum),
        legacy_bonus: sum[LEGACY_BONUS] as i32,
        standardised_bonus: sum[STANDARDISED_BONUS] as i32,
        max_combo: sum[COMBO] as u32,
        nested_per_object: nested_per_object(sum),
        circles: sum[CIRCLES] as u32,
        sliders: sum[SLIDERS] as u32,
        spinners: sum[SPINNERS] as u32,
        repeats: sum[REPEATS] as u32,
        ticks: sum[TICKS] as u32,
    }
}

/// 9 for a play that exceeds the objects of a sum.
pub fn check(play: &Play, sum: &Entry) -> Result<(), u8> {
    let exceeds_sliders = play.origin == Origin::WithSliderAcc
        && (u64::from(play.slider_end_hits) > sum[SLIDERS]
            || u64::from(play.large_tick_hits) > sum[TICKS] + sum[REPEATS]);
    if u64::from(play.judgements()) > sum[OBJECTS]
        || u64::from(play.max_combo) > sum[COMBO]
        || exceeds_sliders
    {
        return Err(9);
    }
    Ok(())
}

/// In seconds, without the breaks that end before the last object.
fn drain_len(first: f64, last: f64, breaks: &[f64]) -> i32 {
    let round = |time: f64| time.round_ties_even() as i32;
    let (breaks, _) = breaks.as_chunks();
    let break_len: i32 = breaks
        .iter()
        .take_while(|[_, end]| *end < last)
        .map(|&[start, end]| round(end) - round(start))
        .sum();
    (round(last) - round(first) - break_len) / 1000
}

fn multiplier(settings: &Settings, objects: i32, drain: i32) -> i32 {
    let map = Beatmap {
        hp: settings.hp,
        od: settings.od,
        cs: settings.cs,
        breaks: Vec::new(),
        hit_objects: Vec::new(),
    };
    calculate_difficulty_peppy_stars(&map.attributes().build(), objects, drain)
}

fn bonus_ratio(sum: &Entry) -> f64 {
    match sum[LEGACY_BONUS] {
        0 => 0.0,
        legacy => sum[STANDARDISED_BONUS] as f64 / legacy as f64,
    }
}

/// All sums of the original here are whole numbers that a float holds exactly.
fn nested_per_object(sum: &Entry) -> f64 {
    let slider_score = 30 * (2 * sum[SLIDERS] + sum[REPEATS]) + 10 * sum[TICKS];
    (slider_score + sum[SPINNER_SCORE]) as f64 / sum[OBJECTS] as f64
}
