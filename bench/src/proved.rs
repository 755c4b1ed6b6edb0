//! The proved functions on slices.

use oracle::{
    given::Factors,
    map::{Origin, Play, Settings},
};
use popejoanplum::sys;
pub use popejoanplum::sys::{BreaksAnswer, MapAnswer, MapInfo, PlayAnswer, Status};

pub const GOOD: Status = Status {
    status: 0,
    offset: 0,
};

// SAFETY, of each call below: pointers and lengths are those of slices that live through the call, and those that are
// written are borrowed mutably, so that they overlap no other.

pub fn read_map(file: &[u8]) -> MapInfo {
    unsafe { sys::pjp_read_map(file.as_ptr(), file.len()) }
}

pub fn score_map(file: &[u8]) -> MapAnswer {
    unsafe { sys::pjp_score_map(file.as_ptr(), file.len()) }
}

pub fn score_play_at(file: &[u8], index: u64) -> PlayAnswer {
    unsafe { sys::pjp_score_play_at(file.as_ptr(), file.len(), index) }
}

pub fn score_play(file: &[u8], play: sys::Play) -> PlayAnswer {
    unsafe { sys::pjp_score_play(file.as_ptr(), file.len(), play) }
}

pub fn heat(file: &[u8], plays: &[sys::Play], outcomes: &mut [PlayAnswer]) -> Status {
    unsafe {
        sys::pjp_heat(
            file.as_ptr(),
            file.len(),
            plays.as_ptr(),
            plays.len(),
            outcomes.as_mut_ptr(),
            outcomes.len(),
        )
    }
}

pub fn build(file: &[u8], board: &mut [u64], starts: &mut [f64]) -> Status {
    unsafe {
        sys::pjp_build(
            file.as_ptr(),
            file.len(),
            board.as_mut_ptr(),
            board.len(),
            starts.as_mut_ptr(),
            starts.len(),
        )
    }
}

pub fn edit(
    board: &mut [u64],
    starts: &mut [f64],
    count: usize,
    place: usize,
    record: &[u8],
) -> Status {
    unsafe {
        sys::pjp_edit(
            board.as_mut_ptr(),
            board.len(),
            starts.as_mut_ptr(),
            starts.len(),
            count,
            place,
            record.as_ptr(),
            record.len(),
        )
    }
}

pub fn read(
    board: &[u64],
    starts: &[f64],
    count: usize,
    settings: sys::Settings,
    breaks: &[f64],
    play: sys::Play,
) -> PlayAnswer {
    unsafe {
        sys::pjp_read(
            board.as_ptr(),
            board.len(),
            starts.as_ptr(),
            starts.len(),
            count,
            settings,
            breaks.as_ptr(),
            breaks.len(),
            play,
        )
    }
}

pub fn read_breaks(
    board: &[u64],
    starts: &[f64],
    count: usize,
    settings: sys::Settings,
    breaks: &[f64],
    play: sys::Play,
    factors: sys::SliderFactors,
) -> BreaksAnswer {
    unsafe {
        sys::pjp_read_breaks(
            board.as_ptr(),
            board.len(),
            starts.as_ptr(),
            starts.len(),
            count,
            settings,
            breaks.as_ptr(),
            breaks.len(),
            play,
            factors,
        )
    }
}

pub fn factors(factors: Factors) -> sys::SliderFactors {
    sys::SliderFactors {
        aim: factors.aim,
        speed: factors.speed,
    }
}

pub fn settings(settings: &Settings) -> sys::Settings {
    sys::Settings {
        hp: settings.hp,
        od: settings.od,
        cs: settings.cs,
    }
}

pub fn play(play: &Play) -> sys::Play {
    sys::Play {
        clock_rate: play.clock_rate,
        max_combo: play.max_combo,
        large_tick_hits: play.large_tick_hits,
        small_tick_hits: play.small_tick_hits,
        slider_end_hits: play.slider_end_hits,
        score: play.score.unwrap_or(0),
        passed_objects: play.passed,
        n300: play.n300,
        n100: play.n100,
        n50: play.n50,
        misses: play.misses,
        flags: play.flags,
        origin: match play.origin {
            Origin::Stable => 0,
            Origin::WithSliderAcc => 1,
            Origin::WithoutSliderAcc => 2,
        },
        has_score: play.score.is_some().into(),
    }
}
