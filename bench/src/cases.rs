//! The maps, edits and plays that are measured.

pub mod spinners;

use oracle::{
    encode::{self, encode},
    generate::{mixed::mixed_map, objects, random::Random},
    given::Factors,
    map::{MapFile, Object, ObjectKind, Play},
    reader::{MAX_NESTED, MAX_OBJECTS},
};

pub const SIZES: [usize; 4] = [10, 100, 1_000, 8_192];

/// How many edits, and plays of a kind, are made for a map.
pub const VARIED: usize = 1_024;

/// As many plays as a heat may have.
pub const HEAT_PLAYS: usize = popejoanplum::HEAT_PLAYS;

/// How many of the last objects the plays that pass nearly all leave out at most.
const NEARLY: usize = 64;

pub struct Edit {
    pub place: usize,
    pub record: Vec<u8>,
}

/// A play with factors whose slider breaks take the whole formula.
pub struct Broken {
    pub play: Play,
    pub factors: Factors,
}

/// A map and the plays of a heat on it.
pub struct Heat {
    pub map: MapFile,
    pub plays: Vec<Play>,
}

/// A map of mixed objects with what is done to it.
pub struct Case {
    pub size: usize,
    pub map: MapFile,
    pub file: Vec<u8>,
    pub edits: Vec<Edit>,
    /// The map behind all edits, which the reads are of.
    pub edited: MapFile,
    pub all_passed: Vec<Play>,
    pub spread: Vec<Play>,
    pub nearly_all: Vec<Play>,
    pub broken_all_passed: Vec<Broken>,
    pub broken_spread: Vec<Broken>,
}

impl Case {
    pub fn new(size: usize) -> Self {
        let r = &mut Random::new(2, size as u64);
        let map = mixed_map(size);
        let mut edited = map.clone();
        let edits: Vec<Edit> = (0..VARIED).map(|_| edit(r, &mut edited)).collect();
        let combos = combos(&edited);
        let mut plays = |passed: &mut dyn FnMut(&mut Random) -> usize| {
            let play = |_| {
                let passed = passed(r);
                play(r, passed, combos[passed])
            };
            (0..VARIED).map(play).collect::<Vec<Play>>()
        };
        let all_passed = plays(&mut |_| size);
        let spread = plays(&mut |r| r.between(1, size as u64) as usize);
        let broken_all = plays(&mut |_| size);
        let broken_spread = plays(&mut |r| r.between(FEWEST_BROKEN, size as u64) as usize);
        let mut broken = |plays: Vec<Play>| plays.into_iter().map(|play| broken(r, play)).collect();
        Self {
            size,
            file: encode(&map),
            map,
            edits,
            all_passed,
            spread,
            nearly_all: (1..=NEARLY.min(size / 2))
                .map(|left| regular_play(size - left, combos[size - left]))
                .collect(),
            broken_all_passed: broken(broken_all),
            broken_spread: broken(broken_spread),
            edited,
        }
    }
}

/// Different maps of a size, of so many objects together that no branch predictor learns them.
pub fn different_maps(size: usize) -> Vec<MapFile> {
    let r = &mut Random::new(5, size as u64);
    let count = 32_768_usize.div_ceil(size);
    (0..count).map(|_| different_map(r, size)).collect()
}

fn different_map(r: &mut Random, size: usize) -> MapFile {
    let mut map = mixed_map(size);
    map.objects = (0..size).map(|place| object(r, place)).collect();
    map.plays = vec![play(r, size, combos(&map)[size])];
    map
}

/// The heats of plays that passed the whole map.
pub const WHOLE_HEATS: &str = "all objects";

/// Different maps of a size, each with a heat of plays that passed all objects.
pub fn whole_heats(size: usize) -> Vec<Heat> {
    heats(size, |_, size| size)
}

/// The same with passed counts all over the map.
pub fn spread_heats(size: usize) -> Vec<Heat> {
    heats(size, |r, size| r.between(1, size as u64) as usize)
}

fn heats(size: usize, passed: fn(&mut Random, usize) -> usize) -> Vec<Heat> {
    let r = &mut Random::new(7, size as u64);
    let heat = |map: MapFile| {
        let combos = combos(&map);
        let play = |_| {
            let passed = passed(r, size);
            play(r, passed, combos[passed])
        };
        let plays = (0..HEAT_PLAYS).map(play).collect();
        Heat { map, plays }
    };
    different_maps(size).into_iter().map(heat).collect()
}

/// Another object at any place.
fn edit(r: &mut Random, map: &mut MapFile) -> Edit {
    let place = r.below(map.objects.len() as u64) as usize;
    let object = object(r, place);
    let record = record(&object);
    map.objects[place] = object;
    Edit { place, record }
}

fn record(object: &Object) -> Vec<u8> {
    let mut record = Vec::new();
    encode::object(&mut record, object);
    record
}

/// An object that starts in the place's third of a second.
fn object(r: &mut Random, place: usize) -> Object {
    Object {
        start: 300.0 * place as f64 + r.below(300) as f64,
        kind: kind(r),
    }
}

/// In the parts that the map has: of 20 objects 11 circles, 8 sliders and a spinner.
fn kind(r: &mut Random) -> ObjectKind {
    match r.below(20) {
        0..11 => ObjectKind::Circle,
        11..19 => {
            let length = r.between(1, 6) as usize;
            objects::slider(r, length)
        }
        _ => ObjectKind::Spinner {
            duration: r.between(1_000, 4_000) as f64,
        },
    }
}

/// The max combo of the first objects, for each count of them.
fn combos(map: &MapFile) -> Vec<u32> {
    let gains = map.objects.iter().map(Object::combo_gain);
    let sums = gains.scan(0, |sum, gain| {
        *sum += gain;
        Some(*sum)
    });
    [0].into_iter().chain(sums).collect()
}

/// A play with a score, so that a read works out each estimate.
fn play(r: &mut Random, passed: usize, combo: u32) -> Play {
    let mut few = || r.between(0, passed as u64 / 8) as u16;
    let (n100, n50, misses) = (few(), few(), few());
    Play {
        passed: passed as u16,
        max_combo: r.between(0, combo.into()) as u32,
        n300: passed as u16 - n100 - n50 - misses,
        n100,
        n50,
        misses,
        score: Some(r.between(1, 2_000 * passed.max(1) as u64) as u32),
        flags: r.pick(&[0, 1, 4, 8, 12, 16]),
        clock_rate: r.pick(&[0.75, 1.0, 1.5]),
        ..Play::default()
    }
}

/// Room for a 100 and two misses.
const FEWEST_BROKEN: u64 = 3;

/// The play with a 100 and two misses more: with a 100, origin 0 and more than one effective miss nothing of its slider
/// breaks' formula is left out.
fn broken(r: &mut Random, play: Play) -> Broken {
    Broken {
        play: Play {
            n300: play.n300 - 3,
            n100: play.n100 + 1,
            misses: play.misses + 2,
            ..play
        },
        factors: Factors {
            aim: r.between(1, 10_240) as f64 / 1_024.0,
            speed: r.between(1, 10_240) as f64 / 1_024.0,
        },
    }
}

/// A play in which only the passed objects, the combo and the score differ from one to the next.
fn regular_play(passed: usize, combo: u32) -> Play {
    Play {
        passed: passed as u16,
        max_combo: combo / 2,
        n300: passed as u16 - 3,
        n100: 1,
        n50: 1,
        misses: 1,
        score: Some(1_000 * passed as u32),
        flags: 4,
        ..Play::default()
    }
}

/// Which of some items comes next, for ever.
#[derive(Clone)]
pub struct Turns {
    order: Vec<u16>,
    at: usize,
}

impl Turns {
    /// Picks at random, far more than a branch predictor remembers.
    pub fn random(items: usize) -> Self {
        let mut r = Random::new(3, items as u64);
        Self {
            order: (0..65_536).map(|_| r.below(items as u64) as u16).collect(),
            at: 0,
        }
    }

    pub fn in_order(items: usize) -> Self {
        Self {
            order: (0..items as u16).collect(),
            at: 0,
        }
    }

    /// The same without the first items, fewer than there are.
    pub fn skip(self, items: usize) -> Self {
        assert!(items < self.order.len(), "an item is next");
        Self { at: items, ..self }
    }

    #[inline]
    pub fn next(&mut self) -> usize {
        let item = self.order[self.at];
        self.at += 1;
        if self.at == self.order.len() {
            self.at = 0;
        }
        item.into()
    }
}

/// Plays that each passed another count of circles, all over the map. The file is as long as the program `list` takes.
pub fn plays_of_different_counts() -> MapFile {
    const OBJECTS: usize = 3_275;
    const PLAYS: usize = 744;
    // A step that has no divisor with the counts from 1 to all but one, so that none comes twice.
    const STEP: usize = 1_237;
    let r = &mut Random::new(6, PLAYS as u64);
    let mut map = map_of(OBJECTS, |_| ObjectKind::Circle);
    let combos = combos(&map);
    let passed = (0..PLAYS).map(|place| 1 + place * STEP % (OBJECTS - 1));
    map.plays = passed.map(|count| play(r, count, combos[count])).collect();
    map
}

/// Plays that each passed all objects but the last, which are as many sliders as a map may have, and as long ones.
pub fn plays_of_all_but_the_last() -> MapFile {
    const PLAYS: usize = 400;
    let r = &mut Random::new(6, PLAYS as u64);
    let mut map = map_of(MAX_OBJECTS, |r| objects::slider(r, MAX_NESTED));
    let passed = MAX_OBJECTS - 1;
    let combo = combos(&map)[passed];
    map.plays = (0..PLAYS).map(|_| play(r, passed, combo)).collect();
    map
}

/// A file for the speed of reading.
pub struct File {
    pub name: &'static str,
    pub objects: usize,
    pub bytes: Vec<u8>,
}

/// The files in which nearly all bytes are nested items.
pub const LONG_SLIDERS: &str = "sliders of 200 nested items";

/// A file of about 60 KB and one of as many objects as a map may have, of each kind.
pub fn files() -> Vec<File> {
    let circles: fn(usize) -> MapFile = |size| map_of(size, |_| ObjectKind::Circle);
    let mixed = |size| MapFile {
        plays: Vec::new(),
        ..mixed_map(size)
    };
    let long = |size| map_of(size, |r| objects::slider(r, 200));
    let kinds = [
        ("circles", 6_000, circles),
        ("mixed objects", 4_760, mixed),
        (LONG_SLIDERS, 283, long),
    ];
    let file = |(name, size, map): (&'static str, usize, fn(usize) -> MapFile)| {
        [size, 8_192].map(|size| File {
            name,
            objects: size,
            bytes: encode(&map(size)),
        })
    };
    kinds.into_iter().flat_map(file).collect()
}

fn map_of(size: usize, kind: fn(&mut Random) -> ObjectKind) -> MapFile {
    let r = &mut Random::new(4, size as u64);
    let object = |place| Object {
        start: 300.0 * place as f64,
        kind: kind(r),
    };
    MapFile {
        objects: (0..size).map(object).collect(),
        ..MapFile::default()
    }
}

#[cfg(test)]
mod tests {
    use std::collections::HashSet;

    use super::*;

    #[test]
    fn the_plays_of_a_heat_passed_what_they_should() {
        let heats = whole_heats(1_000);
        assert_eq!(heats.len(), 33);
        let is_whole = |heat: &Heat| heat.plays.iter().all(|play| play.passed == 1_000);
        assert!(heats.iter().all(is_whole));
        let counts = |heat: &Heat| {
            let counts: HashSet<u16> = heat.plays.iter().map(|play| play.passed).collect();
            assert!(counts.iter().all(|count| (1..=1_000).contains(count)));
            counts.len()
        };
        assert!(spread_heats(1_000).iter().all(|heat| counts(heat) > 50));
    }

    #[test]
    fn turns_go_on_behind_those_that_are_left_out() {
        let mut turns = Turns::in_order(3).skip(2);
        assert_eq!([(); 4].map(|()| turns.next()), [2, 0, 1, 2]);
    }

    #[test]
    fn the_plays_of_a_file_passed_what_they_should() {
        let map = plays_of_different_counts();
        let counts: HashSet<u16> = map.plays.iter().map(|play| play.passed).collect();
        assert_eq!((map.objects.len(), counts.len()), (3_275, 744));
        assert!(counts.iter().all(|count| (1..3_275).contains(count)));
        assert_eq!(encode(&map).len(), 65_500);
        let map = plays_of_all_but_the_last();
        assert_eq!((map.objects.len(), map.plays.len()), (8_192, 400));
        assert!(map.plays.iter().all(|play| play.passed == 8_191));
        assert_eq!(encode(&map).len(), 8_307_918);
    }
}
