//! Maps of spinners, whose half spins are walked one by one: what takes longest on a short file.

use oracle::{
    encode::encode,
    generate::random::Random,
    map::{MapFile, Object, ObjectKind},
    reader::PLAY_RECORD,
    spinner::{MAX_DURATION, first_duration, half_spins_possible},
};

use super::{Edit, HEAT_PLAYS, Heat, combos, play, record};
use crate::listing::MAX_INPUT;

/// As many spinners of an hour, the longest there are, as rule 7 allows.
const HOURS: usize = 75;

const HOUR: ObjectKind = ObjectKind::Spinner {
    duration: MAX_DURATION,
};

/// Plays that each passed all spinners of an hour but the last.
pub fn plays_of_all_hours_but_the_last() -> MapFile {
    with_plays(hours(), |_| HOURS - 1)
}

/// The same with each count but that of all spinners, in turn.
pub fn plays_of_counts_of_hours() -> MapFile {
    with_plays(hours(), |place| HOURS - 1 - place % HOURS)
}

/// Spinners of an hour at the front of a map of circles. The plays end inside them, where few objects hold all half spins.
pub fn plays_inside_hours() -> MapFile {
    const OBJECTS: usize = 1_500;
    let kind = |place| match place {
        0..HOURS => HOUR,
        _ => ObjectKind::Circle,
    };
    with_plays((0..OBJECTS).map(kind), |place| {
        HOURS - 1 - place % (HOURS - 1)
    })
}

/// Many spinners, each as long as rule 7 allows for that many, and plays with passed counts all over the map.
pub fn plays_on_many_spinners() -> MapFile {
    const SPINNERS: usize = 3_000;
    // A step that has no divisor with the counts from 1 to all but one.
    const STEP: usize = 1_237;
    with_plays(spinners(SPINNERS, 1_575), |place| {
        SPINNERS - 1 - place * STEP % (SPINNERS - 1)
    })
}

/// Among maps that leave room for nearly as many plays as a file can hold, the one with the most half spins. Each earns
/// fewer points than those of an hour, since large bonuses come in the place of small ones and not beside them: so rule 7
/// allows more of them.
pub fn plays_of_most_half_spins() -> MapFile {
    const SPINNERS: usize = 83;
    with_plays(spinners(SPINNERS, 56_784), |_| SPINNERS - 1)
}

/// The accepted map with the most half spins that we found. Its file is longer than the listing program takes.
pub fn most_half_spins() -> MapFile {
    map_of(spinners(7_927, 599))
}

/// Plays that passed different counts of spinners of an hour, as many as a heat takes.
pub fn heat_on_hours() -> Heat {
    let r = &mut Random::new(8, HEAT_PLAYS as u64);
    let map = map_of(hours());
    let combos = combos(&map);
    let passed = HOURS - HEAT_PLAYS..HOURS;
    let plays = passed.map(|count| play(r, count, combos[count])).collect();
    Heat { map, plays }
}

/// How many half spins the first objects of a map have.
pub fn half_spins(map: &MapFile, objects: usize) -> u64 {
    let of = |object: &Object| match object.kind {
        ObjectKind::Spinner { duration } => half_spins_possible(duration) as u64 + 1,
        _ => 0,
    };
    map.objects.iter().take(objects).map(of).sum()
}

/// An hour-long spinner, or a circle, at places all over a map: as many as its bonus has room for.
pub fn hour_edits(map: &mut MapFile) -> Vec<Edit> {
    edits(map, HOUR)
}

pub fn circle_edits(map: &mut MapFile) -> Vec<Edit> {
    edits(map, ObjectKind::Circle)
}

fn edits(map: &mut MapFile, kind: ObjectKind) -> Vec<Edit> {
    const EDITS: usize = 64;
    let size = map.objects.len();
    let mut edit = |place: usize| {
        let object = &mut map.objects[place];
        object.kind = kind.clone();
        Edit {
            place,
            record: record(object),
        }
    };
    (0..EDITS).map(|turn| edit(turn * size / EDITS)).collect()
}

fn hours() -> impl Iterator<Item = ObjectKind> {
    (0..HOURS).map(|_| HOUR)
}

/// Spinners whose T is given.
fn spinners(count: usize, total: i32) -> impl Iterator<Item = ObjectKind> {
    let duration = first_duration(half_spins_possible, total);
    (0..count).map(move |_| ObjectKind::Spinner { duration })
}

fn map_of(kinds: impl Iterator<Item = ObjectKind>) -> MapFile {
    let object = |(place, kind)| Object {
        start: 300.0 * place as f64,
        kind,
    };
    MapFile {
        objects: kinds.enumerate().map(object).collect(),
        ..MapFile::default()
    }
}

/// The map with as many plays as the listing program takes, each of which passed the count for its place.
fn with_plays(kinds: impl Iterator<Item = ObjectKind>, passed: impl Fn(usize) -> usize) -> MapFile {
    let mut map = map_of(kinds);
    let room = (MAX_INPUT - encode(&map).len()) / PLAY_RECORD;
    let r = &mut Random::new(8, room as u64);
    let combos = combos(&map);
    let counts = (0..room).map(passed);
    map.plays = counts.map(|count| play(r, count, combos[count])).collect();
    map
}

#[cfg(test)]
mod tests {
    use std::{collections::HashSet, ops::RangeInclusive};

    use super::*;

    #[test]
    fn a_file_is_as_long_as_it_should_be() {
        let cases: [(MapFile, usize, usize, usize, u64); 5] = [
            (
                plays_of_all_hours_but_the_last(),
                75,
                1_458,
                65_516,
                4_293_075,
            ),
            (plays_of_counts_of_hours(), 75, 1_458, 65_516, 4_293_075),
            (plays_inside_hours(), 1_500, 1_134, 65_510, 4_293_075),
            (plays_on_many_spinners(), 3_000, 261, 65_498, 4_728_000),
            (plays_of_most_half_spins(), 83, 1_455, 65_528, 4_713_155),
        ];
        for (map, objects, plays, bytes, spins) in cases {
            assert_eq!((map.objects.len(), map.plays.len()), (objects, plays));
            assert_eq!(encode(&map).len(), bytes);
            assert_eq!(half_spins(&map, objects), spins);
        }
        let map = most_half_spins();
        assert_eq!(half_spins(&map, 7_927), 4_756_200);
        assert_eq!(half_spins(&map, 1), 600);
    }

    #[test]
    fn the_plays_passed_what_they_should() {
        let counts =
            |map: &MapFile| -> HashSet<u16> { map.plays.iter().map(|play| play.passed).collect() };
        let is_all = |map: &MapFile, due: RangeInclusive<u16>| counts(map) == due.collect();
        assert!(is_all(&plays_of_all_hours_but_the_last(), 74..=74));
        assert!(is_all(&plays_of_counts_of_hours(), 0..=74));
        assert!(is_all(&plays_inside_hours(), 1..=74));
        assert!(is_all(&plays_of_most_half_spins(), 82..=82));
        assert_eq!(counts(&plays_on_many_spinners()).len(), 261);
        let plays = heat_on_hours().plays;
        let passed: Vec<u16> = plays.iter().map(|play| play.passed).collect();
        assert_eq!(passed, Vec::from_iter(11..75));
    }
}
