//! Heats: lists of plays beside a map file.

use super::{
    breaks::spoil_record,
    damage::{bad_float, damaged_file, exceed},
    objects::Shape,
    plays,
    random::Random,
    shaped,
};
use crate::{
    encode::{encode, play_record},
    heats::{Heat, MAX_PLAYS},
    map::Play,
    reader::{MAX_CLOCK_RATE, PLAY_RECORD, read_library},
    values::Original,
};

/// Weights of the shapes. Each play takes both sides through the whole file: large ones are rare.
const SHAPES: [(u64, Shape); 9] = [
    (10, Shape::Objects(0, 0)),
    (30, Shape::Objects(1, 1)),
    (50, Shape::Objects(2, 2)),
    (450, Shape::Objects(3, 10)),
    (410, Shape::Objects(11, 60)),
    (25, Shape::Objects(61, 500)),
    (1, Shape::Objects(8_192, 8_192)),
    (4, Shape::LongNested),
    (30, Shape::ComboEdge),
];

/// Weights of ranges of how many plays a heat has. Of 256 and more one byte counts too few.
const PLAYS: [(u64, (u64, u64)); 10] = [
    (5, (0, 0)),
    (12, (1, 1)),
    (14, (2, 2)),
    (43, (3, 8)),
    (8, (9, 62)),
    (4, (63, 63)),
    (5, (64, 64)),
    (5, (65, 65)),
    (3, (66, 130)),
    (1, (256, 320)),
];

/// The heat `index` of a run with this seed.
pub fn heat(seed: u64, index: u64) -> Heat {
    let mut r = Random::new(seed ^ 0x4ea7, index);
    let shape = r.weighted(&SHAPES);
    let mut file = if r.percent(12) {
        damaged_file(seed, index).0
    } else {
        encode(&shaped(&mut r, shape))
    };
    // Beside a refused file any play will do.
    let original = Original::new(&read_library(&file).unwrap_or_default());
    if r.percent(6) {
        let play = plays::play(&mut r, &original);
        file.extend(spoiled(&mut r, &original, play));
    }
    let (fewest, most) = r.weighted(&PLAYS);
    let count = r.between(fewest, most);
    Heat {
        outcomes: outcomes(&mut r, count) as u32,
        plays: records(&mut r, &original, count),
        file,
    }
}

/// How many outcomes are lent for that many plays.
fn outcomes(r: &mut Random, plays: u64) -> u64 {
    match r.below(100) {
        0..=44 => plays,
        45..=58 => plays.saturating_sub(1),
        59..=61 => r.between(0, plays),
        62..=76 => plays + 1,
        77..=89 => plays + r.between(2, 9),
        90..=95 => plays.max(MAX_PLAYS as u64),
        // One byte counts too few.
        _ => 256 + r.between(0, plays / 2),
    }
}

fn records(r: &mut Random, original: &Original, count: u64) -> Vec<[u8; PLAY_RECORD]> {
    let is_spoiled = spoiled_places(r, count);
    let record = |is_spoiled: &bool| {
        let play = plays::play(r, original);
        if *is_spoiled {
            spoiled(r, original, play)
        } else {
            play_record(&play)
        }
    };
    is_spoiled.iter().map(record).collect()
}

/// Which plays are spoiled: none, one at an end or anywhere, some, or all.
fn spoiled_places(r: &mut Random, count: u64) -> Vec<bool> {
    let last = count.saturating_sub(1);
    let anywhere = r.between(0, last);
    let (one, chance) = r.weighted(&[
        (40, (count, 0)),
        (10, (0, 0)),
        (10, (last, 0)),
        (15, (anywhere, 0)),
        (20, (count, 30)),
        (5, (count, 100)),
    ]);
    (0..count)
        .map(|place| place == one || r.percent(chance))
        .collect()
}

/// A play that is out of range or beyond its map, at times just not.
fn spoiled(r: &mut Random, original: &Original, mut play: Play) -> [u8; PLAY_RECORD] {
    match r.below(8) {
        0..=3 => exceed(r, original, &mut play),
        4 => play.flags = r.pick(&[511, 512, 1 << 15, u16::MAX]),
        5 => play.clock_rate = bad_float(r, 0.0, MAX_CLOCK_RATE),
        _ => {
            let mut record = play_record(&play);
            spoil_record(r, &mut record);
            return record;
        }
    }
    play_record(&play)
}
