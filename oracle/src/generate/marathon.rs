//! Score-based estimates above the combo whose product the original's i32 holds, counted.

use crate::{
    map::{MapFile, Object, Play},
    values::{Attributes, MAX_UNCHANGED_COMBO},
};

pub const ESTIMATES: &str = "estimates above 46,341";

/// Neither at the cap, where a score that leaves no rest is too, nor 0, nor raised to 1.
pub const INSIDE: &str = "estimates above 46,341 inside";

/// Whether a play on all objects of the map may be counted.
pub fn is_marathon(map: &MapFile) -> bool {
    map.objects.iter().map(Object::combo_gain).sum::<u32>() > MAX_UNCHANGED_COMBO
}

/// The labels of a play on these objects: both, the first or none.
pub fn labels(a: &Attributes, play: &Play) -> &'static [&'static str] {
    if a.max_combo <= MAX_UNCHANGED_COMBO {
        return &[];
    }
    let Some(value) = a.estimates(play).score_based else {
        return &[];
    };
    let cap = a.miss_steps(play).maximum_miss_count;
    if value != 0.0 && value != 1.0 && value < cap {
        &[ESTIMATES, INSIDE]
    } else {
        &[ESTIMATES]
    }
}
