//! Short forms for maps and plays.

#![allow(dead_code, reason = "each test file takes what it needs")]

use oracle::{
    encode::encode,
    listing::listing,
    map::{MapFile, Nested, Object, ObjectKind, Play, Settings},
    reader::{Refusal, read_library},
};

pub fn circle(start: f64) -> Object {
    Object {
        start,
        kind: ObjectKind::Circle,
    }
}

/// A slider whose nested items are `t`, `r` and `e` for ticks, repeats and tails.
pub fn slider(start: f64, nested: &str) -> Object {
    let item = |letter| match letter {
        't' => Nested::Tick,
        'r' => Nested::Repeat,
        _ => Nested::Tail,
    };
    Object {
        start,
        kind: ObjectKind::Slider(nested.chars().map(item).collect()),
    }
}

/// A slider with that many nested items, all ticks but the tail.
pub fn ticks(count: usize) -> Object {
    slider(0.0, &("t".repeat(count - 1) + "e"))
}

pub fn spinner(start: f64, duration: f64) -> Object {
    Object {
        start,
        kind: ObjectKind::Spinner { duration },
    }
}

pub fn map(setting: f32, objects: Vec<Object>) -> MapFile {
    let settings = Settings {
        hp: setting,
        od: setting,
        cs: setting,
    };
    MapFile {
        settings,
        breaks: Vec::new(),
        objects,
        plays: Vec::new(),
    }
}

/// A play of one 300 on Stable with a score.
pub fn play(passed: u16, max_combo: u32) -> Play {
    Play {
        passed,
        max_combo,
        n300: 1,
        score: Some(1),
        ..Play::default()
    }
}

pub fn with_play(mut map: MapFile, play: Play) -> MapFile {
    map.plays.push(play);
    map
}

/// The listing of a map that goes through its bytes.
pub fn list(map: &MapFile) -> String {
    listing(&read_library(&encode(map)))
}

/// The refusal of these bytes, or none.
pub fn refusal(bytes: &[u8]) -> Option<(u8, usize)> {
    read_library(bytes)
        .err()
        .map(|Refusal { number, offset }| (number, offset))
}
