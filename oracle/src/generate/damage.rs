//! Damaged copies of good files, and short random inputs.

#![allow(clippy::ptr_arg, reason = "all damages have one type")]

use super::{objects, random::Random, small_file};
use crate::{
    encode,
    map::{Break, MapFile, Object, ObjectKind, Origin, Play},
    reader::{
        MAX_BREAKS, MAX_CLOCK_RATE, MAX_NESTED, MAX_OBJECTS, MAX_SETTING, MAX_TIME, read_library,
    },
    spinner::MAX_DURATION,
    values::{MAX_UNCHANGED_COMBO, Original},
};

type Damage = fn(&mut Random, &mut Vec<u8>);

/// Each way to damage a file, with its weight.
const DAMAGES: [(u64, (&str, Damage)); 18] = [
    (6, ("bits flipped", flip_bits)),
    (6, ("cut anywhere", cut_anywhere)),
    (8, ("cut in a record", cut_in_record)),
    (5, ("marks swapped", swap_marks)),
    (5, ("mark replaced", replace_mark)),
    (6, ("record moved", move_record)),
    (5, ("record copied", copy_record)),
    (5, ("record removed", remove_record)),
    (6, ("bytes appended", append_bytes)),
    (16, ("float replaced", replace_float)),
    (8, ("nested count changed", change_nested_count)),
    (10, ("nested item changed", change_nested_item)),
    (14, ("play field replaced", replace_play_field)),
    (16, ("play beyond its map", exceed_map)),
    (2, ("128 to 130 breaks", many_breaks)),
    (1, ("8,191 to 8,194 objects", many_objects)),
    (2, ("legacy bonus at its limit", much_bonus)),
    (4, ("combo at the edge of 32 bits", much_combo)),
];

/// The ways to damage the record of one object.
const RECORD_DAMAGES: [Damage; 8] = [
    flip_bits,
    cut_anywhere,
    cut_in_record,
    replace_mark,
    append_bytes,
    replace_float,
    change_nested_count,
    change_nested_item,
];

/// Damages the record of one object, twice at times: then it shows which check comes first.
pub fn damage_record(r: &mut Random, record: &mut Vec<u8>) {
    for _ in 0..r.pick(&[1, 1, 1, 2]) {
        let damage = r.pick(&RECORD_DAMAGES);
        damage(r, record);
    }
}

/// The damaged file `index` of a run, and the name of what was done to it.
pub fn damaged_file(seed: u64, index: u64) -> (Vec<u8>, &'static str) {
    let mut r = Random::new(seed ^ 0xdada, index);
    if r.percent(12) {
        return (random_input(&mut r), "random input");
    }
    let mut bytes = encode::encode(&small_file(seed, index));
    let (name, damage) = r.weighted(&DAMAGES);
    damage(&mut r, &mut bytes);
    // Two damages show which check comes first.
    if r.percent(20) {
        let (_, damage) = r.weighted(&DAMAGES);
        damage(&mut r, &mut bytes);
    }
    (bytes, name)
}

fn random_input(r: &mut Random) -> Vec<u8> {
    let mut bytes = match r.below(3) {
        0 => Vec::new(),
        1 => r
            .pick(&[b"MH", b"BR", b"CI", b"SL", b"SP", b"PL", b"mh", b"XX"])
            .to_vec(),
        _ => {
            let mut header = Vec::new();
            encode::settings(&mut header, &Default::default());
            header.extend(r.pick(&[b"BR", b"CI", b"SL", b"SP", b"PL", b"MH", b"\0\0"]));
            header
        }
    };
    for _ in 0..r.below(46) {
        bytes.push(if r.percent(50) {
            r.below(3) as u8
        } else {
            r.next_u64() as u8
        });
    }
    bytes
}

/// Offsets of the records. Of a damaged file, of those before the damage.
fn records(bytes: &[u8]) -> Vec<usize> {
    let mut offsets = Vec::new();
    let mut offset = 0;
    while offset + 2 <= bytes.len() {
        let length = match &bytes[offset..offset + 2] {
            b"MH" => 14,
            b"BR" | b"SP" => 18,
            b"CI" => 10,
            b"SL" if offset + 12 <= bytes.len() => {
                12 + usize::from(u16::from_le_bytes([bytes[offset + 10], bytes[offset + 11]]))
            }
            b"PL" => 44,
            _ => break,
        };
        if offset + length > bytes.len() {
            break;
        }
        offsets.push(offset);
        offset += length;
    }
    offsets
}

/// The offsets of all records with one of these marks.
fn marked(bytes: &[u8], marks: &[&[u8; 2]]) -> Vec<usize> {
    let is_marked = |&offset: &usize| marks.iter().any(|&mark| bytes[offset..].starts_with(mark));
    records(bytes).into_iter().filter(is_marked).collect()
}

fn pick_offset(r: &mut Random, offsets: &[usize]) -> Option<usize> {
    (!offsets.is_empty()).then(|| r.pick(offsets))
}

/// A record's first byte and the one after its last.
fn pick_record(r: &mut Random, bytes: &[u8]) -> Option<(usize, usize)> {
    let offsets = records(bytes);
    let start = pick_offset(r, &offsets)?;
    let end = offsets
        .into_iter()
        .find(|&offset| offset > start)
        .unwrap_or(bytes.len());
    Some((start, end))
}

fn put(bytes: &mut [u8], offset: usize, value: &[u8]) {
    bytes[offset..offset + value.len()].copy_from_slice(value);
}

fn flip_bits(r: &mut Random, bytes: &mut Vec<u8>) {
    if bytes.is_empty() {
        return;
    }
    for _ in 0..r.between(1, 3) {
        let place = r.below(bytes.len() as u64) as usize;
        bytes[place] ^= 1 << r.below(8);
    }
}

fn cut_anywhere(r: &mut Random, bytes: &mut Vec<u8>) {
    bytes.truncate(r.between(0, bytes.len() as u64) as usize);
}

fn cut_in_record(r: &mut Random, bytes: &mut Vec<u8>) {
    let Some((start, end)) = pick_record(r, bytes) else {
        return;
    };
    let last = (end - start) as u64;
    let within = r.between(0, last) as usize;
    bytes.truncate(start + r.pick(&[0, 1, 2, last as usize - 1, within]));
}

fn swap_marks(r: &mut Random, bytes: &mut Vec<u8>) {
    let offsets = records(bytes);
    if let (Some(a), Some(b)) = (pick_offset(r, &offsets), pick_offset(r, &offsets)) {
        bytes.swap(a, b);
        bytes.swap(a + 1, b + 1);
    }
}

fn replace_mark(r: &mut Random, bytes: &mut Vec<u8>) {
    let marks = [
        b"MH", b"BR", b"CI", b"SL", b"SP", b"PL", b"ci", b"HM", b"\0\0", b"CL",
    ];
    if let Some(offset) = pick_offset(r, &records(bytes)) {
        let mark = r.pick(&marks);
        put(bytes, offset, mark);
    }
}

fn move_record(r: &mut Random, bytes: &mut Vec<u8>) {
    if let Some((start, end)) = pick_record(r, bytes) {
        let record: Vec<u8> = bytes.drain(start..end).collect();
        let to = pick_offset(r, &records(bytes)).unwrap_or(0);
        bytes.splice(to..to, record);
    }
}

fn copy_record(r: &mut Random, bytes: &mut Vec<u8>) {
    if let Some((start, end)) = pick_record(r, bytes) {
        let record = bytes[start..end].to_vec();
        let ends = [start, end, bytes.len()];
        let to = r.pick(&ends);
        bytes.splice(to..to, record);
    }
}

fn remove_record(r: &mut Random, bytes: &mut Vec<u8>) {
    let record = if r.percent(30) && bytes.len() >= 14 {
        Some((0, 14))
    } else {
        pick_record(r, bytes)
    };
    if let Some((start, end)) = record {
        bytes.drain(start..end);
    }
}

fn append_bytes(r: &mut Random, bytes: &mut Vec<u8>) {
    let filler = r.pick(&[0, b'C', b'P', 255]);
    for _ in 0..r.between(1, 4) {
        bytes.push(filler);
    }
    if r.percent(20) {
        bytes.extend(b"CI");
    }
}

/// Puts a limit, a value one step beyond, or no finite number into a float.
fn replace_float(r: &mut Random, bytes: &mut Vec<u8>) {
    let Some(offset) = pick_offset(r, &marked(bytes, &[b"MH", b"BR", b"CI", b"SL", b"SP"])) else {
        return;
    };
    let field = 8 * r.below(2) as usize;
    match &bytes[offset..offset + 2] {
        b"MH" => {
            let field = 4 * r.below(3) as usize;
            put(bytes, offset + 2 + field, &bad_setting(r).to_le_bytes());
        }
        b"SP" if field == 8 => put(
            bytes,
            offset + 10,
            &bad_float(r, 0.0, MAX_DURATION).to_le_bytes(),
        ),
        b"BR" => put(
            bytes,
            offset + 2 + field,
            &bad_float(r, -MAX_TIME, MAX_TIME).to_le_bytes(),
        ),
        _ => put(
            bytes,
            offset + 2,
            &bad_float(r, -MAX_TIME, MAX_TIME).to_le_bytes(),
        ),
    }
}

pub fn bad_setting(r: &mut Random) -> f32 {
    r.pick(&[
        0.0,
        -0.0,
        MAX_SETTING,
        MAX_SETTING.next_up(),
        -1e-45,
        -1.0,
        13.0,
        f32::MAX,
        f32::NAN,
        -f32::NAN,
        f32::from_bits(0x7f80_0001),
        f32::INFINITY,
        f32::NEG_INFINITY,
    ])
}

pub fn bad_float(r: &mut Random, low: f64, high: f64) -> f64 {
    let any = f64::from_bits(r.next_u64());
    r.pick(&[
        low,
        high,
        low.next_down(),
        high.next_up(),
        -0.0,
        f64::MAX,
        f64::MIN,
        f64::NAN,
        -f64::NAN,
        f64::from_bits(0x7ff0_0000_0000_0001),
        f64::INFINITY,
        f64::NEG_INFINITY,
        any,
    ])
}

fn change_nested_count(r: &mut Random, bytes: &mut Vec<u8>) {
    let Some(offset) = pick_offset(r, &marked(bytes, &[b"SL"])) else {
        return;
    };
    let count = u16::from_le_bytes([bytes[offset + 10], bytes[offset + 11]]);
    let counts = [
        0,
        count.saturating_sub(1),
        count.saturating_add(1),
        1_000,
        1_001,
        u16::MAX,
    ];
    put(bytes, offset + 10, &r.pick(&counts).to_le_bytes());
    if r.percent(30) {
        // The list grows to the edge, so that not its cut is what is seen.
        let length = r.pick(&[MAX_NESTED, MAX_NESTED + 1]);
        let end = offset + 12 + usize::from(count);
        put(bytes, offset + 10, &(length as u16).to_le_bytes());
        let added = length.saturating_sub(count.into());
        bytes.splice(end - 1..end - 1, vec![0; added]);
    }
}

fn change_nested_item(r: &mut Random, bytes: &mut Vec<u8>) {
    let Some(offset) = pick_offset(r, &marked(bytes, &[b"SL"])) else {
        return;
    };
    let count = u64::from(u16::from_le_bytes([bytes[offset + 10], bytes[offset + 11]]));
    if count == 0 {
        return;
    }
    let places = [0, count - 1, r.below(count)];
    bytes[offset + 12 + r.pick(&places) as usize] = r.pick(&[0, 1, 2, 3, 255]);
}

/// Replaces a field of a play by one that is refused, or just not, by 8.
fn replace_play_field(r: &mut Random, bytes: &mut Vec<u8>) {
    let Some(offset) = pick_offset(r, &marked(bytes, &[b"PL"])) else {
        return;
    };
    match r.below(5) {
        0 => bytes[offset + 28] = r.pick(&[0, 1, 2, 3, 255]),
        1 => bytes[offset + 29] = r.pick(&[0, 1, 2, 255]),
        2 => {
            bytes[offset + 29] = 0;
            put(
                bytes,
                offset + 30,
                &r.pick(&[0_u32, 1, 1 << 31]).to_le_bytes(),
            );
        }
        3 => put(
            bytes,
            offset + 34,
            &r.pick(&[511_u16, 512, 1 << 15, u16::MAX]).to_le_bytes(),
        ),
        _ => put(
            bytes,
            offset + 36,
            &bad_float(r, 0.0, MAX_CLOCK_RATE).to_le_bytes(),
        ),
    }
}

/// Puts a play at or one beyond what its map allows.
fn exceed_map(r: &mut Random, bytes: &mut Vec<u8>) {
    let (Ok(mut map), Some(last)) = (read_library(bytes), bytes.len().checked_sub(44)) else {
        return;
    };
    let Some(mut play) = map.plays.pop() else {
        return;
    };
    exceed(r, &Original::new(&map), &mut play);
    bytes.truncate(last);
    encode::play(bytes, &play);
}

/// Puts a play of the map at or one beyond what it allows.
pub fn exceed(r: &mut Random, original: &Original, play: &mut Play) {
    let a = original.attributes(play.passed.into());
    let beyond = r.pick(&[0, 1, 1]);
    match r.below(4) {
        0 => play.max_combo = a.max_combo + beyond,
        1 => {
            let rest = play.judgements() - u32::from(play.n100);
            play.n100 = (a.objects - rest + beyond) as u16;
        }
        2 => {
            play.origin = r.pick(&[Origin::WithSliderAcc, Origin::WithSliderAcc, play.origin]);
            play.slider_end_hits = a.sliders + beyond;
        }
        _ => {
            play.origin = r.pick(&[Origin::WithSliderAcc, Origin::WithSliderAcc, play.origin]);
            play.large_tick_hits = a.ticks + a.repeats + beyond;
        }
    }
}

fn many_breaks(r: &mut Random, bytes: &mut Vec<u8>) {
    let Ok(mut map) = read_library(bytes) else {
        return;
    };
    let count = MAX_BREAKS + r.below(3) as usize;
    map.breaks.resize(
        count,
        Break {
            start: 0.0,
            end: 1.0,
        },
    );
    *bytes = encode::encode(&map);
    if r.percent(30) {
        // The count is checked before the cut.
        bytes.truncate(14 + 18 * count - r.between(1, 16) as usize);
    }
}

fn many_objects(r: &mut Random, bytes: &mut Vec<u8>) {
    let count = MAX_OBJECTS - 1 + r.below(4) as usize;
    let circle = Object {
        start: 0.0,
        kind: ObjectKind::Circle,
    };
    let map = MapFile {
        objects: vec![circle; count],
        ..MapFile::default()
    };
    *bytes = encode::encode(&map);
    if r.percent(30) {
        bytes.truncate(bytes.len() - r.between(1, 9) as usize);
    }
}

fn much_bonus(r: &mut Random, bytes: &mut Vec<u8>) {
    let kinds = objects::kinds(r, objects::Shape::BonusLimit);
    let mut objects: Vec<_> = kinds
        .into_iter()
        .map(|kind| Object { start: 0.0, kind })
        .collect();
    // 200 ms give 100 points, of which the fullest bonus has no room.
    let durations = [0.0, 100.0, 200.0, MAX_DURATION];
    objects.push(Object {
        start: 0.0,
        kind: ObjectKind::Spinner {
            duration: r.pick(&durations),
        },
    });
    *bytes = encode::encode(&MapFile {
        objects,
        ..MapFile::default()
    });
    if r.percent(20) {
        bytes.truncate(bytes.len() - 1);
    }
}

/// A play on a map with combo 46,340 to 46,345: 9, or a value on both sides of the edge.
fn much_combo(r: &mut Random, bytes: &mut Vec<u8>) {
    let combo = MAX_UNCHANGED_COMBO - 1 + r.below(6) as u32;
    let sliders = combo / 1_001;
    let mut kinds: Vec<_> = (0..sliders)
        .map(|_| objects::slider(r, MAX_NESTED))
        .collect();
    kinds.resize((sliders + combo % 1_001) as usize, ObjectKind::Circle);
    let objects = kinds
        .into_iter()
        .map(|kind| Object { start: 0.0, kind })
        .collect();
    let play = Play {
        passed: u16::MAX - r.below(3) as u16,
        max_combo: r.pick(&[0, 1_000, combo, combo + 1]),
        n300: r.below(3) as u16,
        misses: r.below(2) as u16,
        origin: r.weighted(&[
            (2, Origin::Stable),
            (1, Origin::WithSliderAcc),
            (2, Origin::WithoutSliderAcc),
        ]),
        score: r.pick(&[None, Some(0), Some(1_000_000), Some(u32::MAX)]),
        ..Play::default()
    };
    *bytes = encode::encode(&MapFile {
        objects,
        plays: vec![play],
        ..MapFile::default()
    });
}
