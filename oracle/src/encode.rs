//! Writes a map file's records. Ranges are not checked: damaged files come from here too.

use crate::{
    map::{Break, MapFile, Nested, Object, ObjectKind, Origin, Play, Settings},
    reader::PLAY_RECORD,
};

pub fn encode(map: &MapFile) -> Vec<u8> {
    let mut out = Vec::new();
    settings(&mut out, &map.settings);
    map.breaks.iter().for_each(|b| break_period(&mut out, b));
    map.objects.iter().for_each(|o| object(&mut out, o));
    map.plays.iter().for_each(|p| play(&mut out, p));
    out
}

pub fn settings(out: &mut Vec<u8>, settings: &Settings) {
    out.extend(b"MH");
    for value in [settings.hp, settings.od, settings.cs] {
        out.extend(value.to_le_bytes());
    }
}

pub fn break_period(out: &mut Vec<u8>, b: &Break) {
    out.extend(b"BR");
    out.extend(b.start.to_le_bytes());
    out.extend(b.end.to_le_bytes());
}

pub fn object(out: &mut Vec<u8>, object: &Object) {
    let mark = match object.kind {
        ObjectKind::Circle => b"CI",
        ObjectKind::Slider(_) => b"SL",
        ObjectKind::Spinner { .. } => b"SP",
    };
    out.extend(mark);
    out.extend(object.start.to_le_bytes());
    match &object.kind {
        ObjectKind::Circle => {}
        ObjectKind::Slider(nested) => {
            out.extend((nested.len() as u16).to_le_bytes());
            out.extend(nested.iter().map(|item| match item {
                Nested::Tick => 0,
                Nested::Repeat => 1,
                Nested::Tail => 2,
            }));
        }
        ObjectKind::Spinner { duration } => out.extend(duration.to_le_bytes()),
    }
}

pub fn play(out: &mut Vec<u8>, play: &Play) {
    out.extend(b"PL");
    out.extend(play.passed.to_le_bytes());
    out.extend(play.max_combo.to_le_bytes());
    for count in [play.n300, play.n100, play.n50, play.misses] {
        out.extend(count.to_le_bytes());
    }
    for hits in [
        play.large_tick_hits,
        play.small_tick_hits,
        play.slider_end_hits,
    ] {
        out.extend(hits.to_le_bytes());
    }
    out.push(match play.origin {
        Origin::Stable => 0,
        Origin::WithSliderAcc => 1,
        Origin::WithoutSliderAcc => 2,
    });
    out.push(u8::from(play.score.is_some()));
    out.extend(play.score.unwrap_or(0).to_le_bytes());
    out.extend(play.flags.to_le_bytes());
    out.extend(play.clock_rate.to_le_bytes());
}

/// A play's record alone.
pub fn play_record(play: &Play) -> [u8; PLAY_RECORD] {
    let mut record = Vec::new();
    self::play(&mut record, play);
    record.try_into().expect("the length of a play's record")
}
