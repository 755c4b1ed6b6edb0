//! Lists of calls on a board.

use super::{
    breaks,
    damage::{bad_float, bad_setting, damage_record, damaged_file, exceed},
    objects::{self, Shape},
    plays,
    random::Random,
    shaped, times,
};
use crate::{
    board::{ENTRY, places},
    calls::{self, Call, List},
    encode::{self, encode},
    map::{MapFile, Object, ObjectKind, Play},
    reader::{MAX_CLOCK_RATE, MAX_NESTED, MAX_OBJECTS, MAX_TIME},
    spinner::MAX_DURATION,
    values::Original,
};

/// Weights of the shapes, with the most calls of a list.
const SHAPES: [(u64, (Shape, u64)); 11] = [
    (20, (Shape::Objects(0, 0), 20)),
    (40, (Shape::Objects(1, 1), 40)),
    (40, (Shape::Objects(2, 2), 60)),
    (350, (Shape::Objects(3, 10), 80)),
    (400, (Shape::Objects(11, 70), 80)),
    (60, (Shape::Objects(71, 300), 60)),
    (4, (Shape::Objects(301, 3_000), 40)),
    (1, (Shape::Objects(3_001, 8_191), 40)),
    (1, (Shape::Objects(8_192, 8_192), 40)),
    (30, (Shape::ComboEdge, 40)),
    (12, (Shape::BonusLimit, 40)),
];

/// The list `index` of a run with this seed.
pub fn list(seed: u64, index: u64) -> Vec<Call> {
    let mut r = Random::new(seed ^ 0xca11, index);
    if r.percent(3) {
        return refused_build(&mut r, seed, index);
    }
    let (shape, most) = r.weighted(&SHAPES);
    let map = shaped(&mut r, shape);
    // Factors have a source of their own, so that the rest of a list is as it is without them.
    let mut of_factors = Random::new(seed ^ 0xfac7, index);
    let mut made = Made::default();
    made.put(build(&mut r, map));
    for _ in 0..r.between(0, most) {
        let call = next(&mut r, &made, shape);
        let call = with_factors(&mut of_factors, made.map(), call);
        made.put(call);
    }
    made.put(Call::Board);
    made.calls
}

/// The calls so far, and the map behind them.
#[derive(Default)]
struct Made {
    calls: Vec<Call>,
    list: List,
    words: u32,
    starts: u32,
}

impl Made {
    /// Puts the call behind the others. Only a build and an edit change the map.
    fn put(&mut self, call: Call) {
        if let Call::Build { words, starts, .. } = call {
            (self.words, self.starts) = (words, starts);
        }
        if let Call::Build { .. } | Call::Edit { .. } = call {
            let answer = self.list.answer(&call);
            answer.expect("a call that a list may have");
        }
        self.calls.push(call);
    }

    fn map(&self) -> &MapFile {
        self.list.map().expect("an accepted build")
    }
}

/// An accepted build, in all the memory that it needs or in more.
fn build(r: &mut Random, mut map: MapFile) -> Call {
    if r.percent(60) {
        map.plays.clear();
    }
    let (words, starts) = room(&map);
    let more = |r: &mut Random| {
        if r.percent(50) {
            0
        } else {
            r.between(1, 60) as u32
        }
    };
    Call::Build {
        words: words + more(r),
        starts: starts + more(r),
        file: encode(&map),
    }
}

fn room(map: &MapFile) -> (u32, u32) {
    let count = map.objects.len();
    ((2 * ENTRY * places(count)) as u32, count as u32)
}

/// A build without room, or one of a damaged file; it leaves what is lent.
fn refused_build(r: &mut Random, seed: u64, index: u64) -> Vec<Call> {
    let build = if r.percent(50) {
        let map = shaped(r, Shape::Objects(1, 20));
        let (words, starts) = room(&map);
        let less = r.between(1, u64::from(starts)) as u32;
        let (words, starts) = r.pick(&[
            (words - 1, starts),
            (words / 2, starts),
            (words, starts - less),
        ]);
        Call::Build {
            words,
            starts,
            file: encode(&map),
        }
    } else {
        Call::Build {
            words: 1_000,
            starts: 40,
            file: damaged_file(seed, index).0,
        }
    };
    vec![build, Call::Board]
}

fn next(r: &mut Random, made: &Made, shape: Shape) -> Call {
    match r.below(100) {
        0..=49 => edit(r, made, shape),
        50..=91 => read(r, made.map(), shape),
        92..=95 => other_read(r, made.map(), shape),
        _ => Call::Board,
    }
}

/// Gives factors to a third of the reads, and another play to half of these: most have breaks above 0.
fn with_factors(r: &mut Random, map: &MapFile, mut call: Call) -> Call {
    if let Call::Read { factors, play, .. } = &mut call
        && r.below(3) == 0
    {
        *factors = Some(breaks::factors(r));
        if r.percent(50) {
            *play = breaks::broken(r, &Original::new(map));
        }
    }
    call
}

fn edit(r: &mut Random, made: &Made, shape: Shape) -> Call {
    let count = made.map().objects.len() as u64;
    let mut record = Vec::new();
    encode::object(&mut record, &object(r, shape));
    let is_refused = r.percent(20);
    if is_refused {
        refuse_record(r, &mut record);
    }
    let (count, place) = match r.below(100) {
        0..=5 => (count, beyond(r, count)),
        6..=11 => other_count(r, made, count),
        _ if count == 0 => (0, 0),
        // The shortest spinners are last.
        12..=69 if matches!(shape, Shape::BonusLimit) => (count, count - 1 - r.below(6)),
        _ => (count, r.below(count)),
    };
    Call::Edit {
        count: count as u32,
        place: place as u32,
        record,
    }
}

/// Any object; on a map at the edge of its combo or the limit of its bonus one that keeps it near.
fn object(r: &mut Random, shape: Shape) -> Object {
    let kind = match (shape, r.below(100)) {
        (Shape::ComboEdge, 0..=89) => {
            let length = r.between(MAX_NESTED as u64 - 60, MAX_NESTED as u64);
            objects::slider(r, length as usize)
        }
        (Shape::BonusLimit, 0..=84) => ObjectKind::Spinner {
            duration: MAX_DURATION - r.pick(&[0.0, 0.0, 1.0, 10_000.0]),
        },
        (_, 0..=29) => ObjectKind::Circle,
        (_, 30..=64) => {
            let longest = r.weighted(&[(60, 6), (30, 20), (1, MAX_NESTED as u64)]);
            let length = r.between(1, longest);
            objects::slider(r, length as usize)
        }
        (_, 65..=66) => objects::slider(r, MAX_NESTED),
        _ => ObjectKind::Spinner {
            duration: objects::duration(r),
        },
    };
    Object {
        start: times::time(r),
        kind,
    }
}

/// A record that is damaged, or of no object.
fn refuse_record(r: &mut Random, record: &mut Vec<u8>) {
    match r.below(10) {
        0 => *record = encode(&MapFile::default()),
        1 => {
            record.clear();
            encode::play(record, &Play::default());
        }
        2 => record.extend(record.clone()),
        _ => damage_record(r, record),
    }
}

/// A place that is not below the count.
fn beyond(r: &mut Random, count: u64) -> u64 {
    let last = places(count as usize) as u64 - 1;
    r.pick(&[count, count + 1, last.max(count), u64::from(u32::MAX)])
}

/// Another count and a place, refused by 6, 11 or 12.
fn other_count(r: &mut Random, made: &Made, count: u64) -> (u64, u64) {
    match r.below(4) {
        0 => {
            let most = MAX_OBJECTS as u64;
            (r.pick(&[most + 1, most + 2, u64::from(u32::MAX)]), 0)
        }
        // More objects than starts that are lent, or more places than words.
        1 => {
            let above = r.pick(&[
                u64::from(made.starts) + 1,
                u64::from(made.words) / (2 * ENTRY as u64) + 1,
            ]);
            (above.max(count + 1), 0)
        }
        2 => (count + 1, count + 1),
        // A place of the map, beyond a smaller count.
        _ => {
            let smaller = r.between(0, count.saturating_sub(1));
            (smaller, r.between(smaller, count))
        }
    }
}

fn read(r: &mut Random, map: &MapFile, shape: Shape) -> Call {
    let play = play(r, map, shape);
    read_of(map, true, play)
}

fn read_of(map: &MapFile, is_own: bool, play: Play) -> Call {
    Call::Read {
        is_own,
        factors: None,
        count: map.objects.len() as u32,
        settings: map.settings,
        breaks: calls::times(&map.breaks),
        play,
    }
}

/// A play, refused at times by 8 or 9.
fn play(r: &mut Random, map: &MapFile, shape: Shape) -> Play {
    let original = Original::new(map);
    let count = map.objects.len() as u64;
    // Just the last objects lead over the edge of the combo.
    let fewest = match shape {
        Shape::ComboEdge => count.saturating_sub(3),
        _ => 0,
    };
    let mut play = if r.percent(50) {
        let passed = r.between(fewest, count) as u16;
        plays::play_of(r, &original, passed)
    } else {
        plays::play(r, &original)
    };
    spoil(r, &original, &mut play);
    play
}

/// Puts a play out of range or beyond its map at times.
pub fn spoil(r: &mut Random, original: &Original, play: &mut Play) {
    match r.below(100) {
        0..=3 => play.flags = r.pick(&[511, 512, 1 << 15, u16::MAX]),
        4..=7 => play.clock_rate = bad_float(r, 0.0, MAX_CLOCK_RATE),
        8..=19 => exceed(r, original, play),
        _ => {}
    }
}

/// A read with another count, settings or breaks.
fn other_read(r: &mut Random, map: &MapFile, shape: Shape) -> Call {
    let mut call = read_of(map, false, play(r, map, shape));
    if let Call::Read {
        count,
        settings,
        breaks,
        ..
    } = &mut call
    {
        match r.below(5) {
            0 => *count = r.pick(&[0, *count / 2, *count + 1, 2 * *count + 1, 8_193, u32::MAX]),
            1 => settings.od = bad_setting(r),
            2 => breaks.push(bad_float(r, -MAX_TIME, MAX_TIME)),
            3 => breaks.resize(r.pick(&[255, 256, 257, 258]), 0.0),
            _ => breaks.clear(),
        }
    }
    call
}
