//! A record's line.

use std::fmt::Display;

use super::decimal;
use crate::{
    map::{Nested, Object, ObjectKind},
    play::{Mods, Origin, Play},
    record::Record,
};

pub(super) fn line(record: &Record) -> String {
    match record {
        Record::Header(settings) => format!(
            "map hp {} od {} cs {}",
            decimal::write(settings.hp),
            decimal::write(settings.od),
            decimal::write(settings.cs)
        ),
        Record::Break(b) => format!(
            "break {} {}",
            decimal::write(b.start),
            decimal::write(b.end)
        ),
        Record::Object(object) => object_line(object),
        Record::Play(play) => play_line(play),
    }
}

fn object_line(object: &Object) -> String {
    let start = decimal::write(object.start);
    match &object.kind {
        ObjectKind::Circle => format!("circle {start}"),
        ObjectKind::Slider { nested } => format!("slider {start}{}", nested_words(nested)),
        ObjectKind::Spinner { duration } => {
            format!("spinner {start} for {}", decimal::write(*duration))
        }
    }
}

/// A run of more than one item is one word.
fn nested_words(nested: &[Nested]) -> String {
    let mut words = String::new();
    for run in nested.chunk_by(|a, b| a == b) {
        let name = match run[0] {
            Nested::Tick => "tick",
            Nested::Repeat => "repeat",
            Nested::Tail => "tail",
        };
        words += &match run.len() {
            1 => format!(" {name}"),
            times => format!(" {name}*{times}"),
        };
    }
    words
}

fn play_line(play: &Play) -> String {
    let mut line = format!("play passed {}", play.passed_objects);
    let mut put = |name: &str, is_default: bool, value: &dyn Display| {
        if !is_default {
            line += &format!(" {name} {value}");
        }
    };
    for (name, value) in [
        ("combo", play.max_combo),
        ("n300", play.n300.into()),
        ("n100", play.n100.into()),
        ("n50", play.n50.into()),
        ("misses", play.misses.into()),
        ("large", play.large_tick_hits),
        ("small", play.small_tick_hits),
        ("ends", play.slider_end_hits),
    ] {
        put(name, value == 0, &value);
    }
    let origin = match play.origin {
        Origin::Stable => "stable",
        Origin::WithSliderAcc => "with-slider-acc",
        Origin::WithoutSliderAcc => "without-slider-acc",
    };
    put("origin", play.origin == Origin::Stable, &origin);
    if let Some(score) = play.score {
        put("score", false, &score);
    }
    put("flags", play.mods == Mods::NONE, &play.mods);
    let rate = decimal::write(play.clock_rate);
    put("rate", play.clock_rate == 1.0, &rate);
    line
}
