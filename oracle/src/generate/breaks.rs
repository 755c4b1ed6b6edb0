//! Plays with factors beside a map file.

use super::{
    calls::spoil,
    damage::{bad_float, damaged_file},
    objects::Shape,
    plays::{self, score_of},
    random::Random,
    shaped,
};
use crate::{
    breaks::{Frame, Given},
    encode::encode,
    given::{Factors, MAX_FACTOR},
    map::{Origin, Play},
    reader::read_library,
    values::{Attributes, Original},
};

/// Weights of the shapes. Each play takes both sides through the whole file: large ones are rare.
const SHAPES: [(u64, Shape); 9] = [
    (10, Shape::Objects(0, 0)),
    (20, Shape::Objects(1, 1)),
    (40, Shape::Objects(2, 2)),
    (350, Shape::Objects(3, 10)),
    (530, Shape::Objects(11, 60)),
    (30, Shape::Objects(61, 500)),
    (1, Shape::Objects(8_192, 8_192)),
    (4, Shape::LongNested),
    (15, Shape::ComboEdge),
];

/// The frame `index` of a run with this seed.
pub fn frame(seed: u64, index: u64) -> Frame {
    let mut r = Random::new(seed ^ 0xb4ea, index);
    let shape = r.weighted(&SHAPES);
    let file = if r.percent(4) {
        damaged_file(seed, index).0
    } else {
        encode(&shaped(&mut r, shape))
    };
    // Beside a refused file any play will do.
    let original = Original::new(&read_library(&file).unwrap_or_default());
    let given = (0..r.between(1, 8))
        .map(|_| given(&mut r, &original))
        .collect();
    Frame { given, file }
}

fn given(r: &mut Random, original: &Original) -> Given {
    let mut play = if r.percent(40) {
        plays::play(r, original)
    } else {
        broken(r, original)
    };
    if r.percent(50) {
        spoil(r, original, &mut play);
    }
    let mut given = Given::new(&play, factors(r));
    if r.percent(2) {
        spoil_record(r, &mut given.record);
    }
    given
}

/// Puts origin, score mark or score out of range, which no play of Rust's types is.
pub fn spoil_record(r: &mut Random, record: &mut [u8]) {
    let (place, byte) = r.pick(&[(28, 3), (28, 255), (29, 2), (29, 255), (30, 1), (33, 128)]);
    record[place] = byte;
    // A score is out of range where none is there.
    if place >= 30 {
        record[29] = 0;
    }
}

/// A play with 100s and classic slider accuracy, most of which have breaks above 0.
pub fn broken(r: &mut Random, original: &Original) -> Play {
    let mut play = plays::play(r, original);
    let a = original.attributes(play.passed.into());
    play.origin = r.pick(&[Origin::Stable, Origin::WithoutSliderAcc]);
    judgements(r, a.objects, &mut play);
    play.max_combo = max_combo(r, &a);
    play.score = score(r, &a, &play);
    play
}

fn judgements(r: &mut Random, objects: u32, play: &mut Play) {
    let mut left = u64::from(objects);
    let mut take = |r: &mut Random, least: u64, most: u64| {
        let taken = r.between(least.min(left), most.min(left));
        left -= taken;
        taken as u16
    };
    let most = r.pick(&[1, 2, 4, 10, u64::from(objects).max(1)]);
    play.n100 = take(r, 1, most);
    let few = r.pick(&[0, 1, 1, 2, 3, 6]);
    play.misses = take(r, 0, few);
    play.n50 = take(r, 0, few);
    play.n300 = if r.percent(90) { left as u16 } else { 0 };
}

/// From none to a full combo, often above its half: then a broken combo counts from 1 to 2 misses.
fn max_combo(r: &mut Random, a: &Attributes) -> u32 {
    let most = u64::from(a.max_combo);
    let combo = match r.below(8) {
        0 => most,
        1 => r.pick(&[0, 1]),
        2 | 3 => r.between(most / 2, most),
        // Where the logistic is steepest.
        4 => most * 2 / 3 + r.below(3),
        _ => r.between(0, most),
    };
    combo.min(most) as u32
}

/// None, or one whose estimate is from 1 to its cap, often just above 1.
fn score(r: &mut Random, a: &Attributes, play: &Play) -> Option<u32> {
    if play.judgements() == 0 || r.percent(30) {
        return None;
    }
    let steps = a.miss_steps(play);
    let above = (steps.maximum_miss_count - 1.0).max(0.0);
    let above = if r.percent(50) { above.min(1.1) } else { above };
    Some(score_of(&steps, 1.0 + above * r.unit()))
}

/// Two factors, of which at times one or both are out of range.
pub fn factors(r: &mut Random) -> Factors {
    let (aim, speed) = r.weighted(&[
        (85, (false, false)),
        (6, (true, false)),
        (6, (false, true)),
        (3, (true, true)),
    ]);
    let mut one = |is_bad: bool| if is_bad { bad_factor(r) } else { factor(r) };
    Factors {
        aim: one(aim),
        speed: one(speed),
    }
}

fn factor(r: &mut Random) -> f64 {
    match r.below(100) {
        0..=7 => 0.0,
        8..=14 => -0.0,
        15..=22 => r.pick(&[MAX_FACTOR, MAX_FACTOR, MAX_FACTOR.next_down()]),
        23..=27 => f64::from_bits(r.between(1, (1 << 52) - 1)),
        // Of every size: the bits of doubles above 0 rise with the doubles.
        28..=35 => f64::from_bits(r.between(1, MAX_FACTOR.to_bits())),
        36..=50 => r.between(1, 9) as f64,
        51..=75 => r.unit(),
        _ => r.unit() * MAX_FACTOR,
    }
}

fn bad_factor(r: &mut Random) -> f64 {
    match r.below(4) {
        0 => MAX_FACTOR.next_up(),
        1 => -r.unit() * MAX_FACTOR,
        2 => MAX_FACTOR + 0.5 + r.unit(),
        _ => bad_float(r, 0.0, MAX_FACTOR),
    }
}
