//! Maps whose combo product passes 32 bits: the original with that product widened, and nothing else
//! that leaves its type.

mod common;

use common::{circle, map, play, slider, ticks};
use oracle::{
    generate::marathon::is_marathon,
    map::{MapFile, Origin, Play},
    reader::{PLAY_RECORD, read_library, read_play},
    recipe::{Kind, Row, parse_table},
    values::{MAX_UNCHANGED_COMBO, Original},
};

/// Sliders of combo 1,001 and circles.
fn of_combo(combo: usize) -> MapFile {
    let mut objects = vec![ticks(1_000); combo / 1_001];
    objects.resize(combo / 1_001 + combo % 1_001, circle(0.0));
    map(5.0, objects)
}

/// 46,339 × 46,341 is 2,147,395,599 and 46,340 × 46,342 is 2,147,488,280; 2^31 - 1 lies between them.
#[test]
#[should_panic(expected = "overflow")]
fn the_unchanged_original_stops_at_combo_46_342() {
    let attributes = Original::new(&of_combo(46_342)).attributes(8_192);
    attributes.unchanged_estimates(&play(8_192, 46_342));
}

#[test]
fn the_unchanged_original_runs_up_to_46_341() {
    assert_eq!(MAX_UNCHANGED_COMBO, 46_341);
    for combo in [1, 2, 46_340, 46_341] {
        let attributes = Original::new(&of_combo(combo)).attributes(8_192);
        for max_combo in [0, 1, combo as u32 / 2, combo as u32] {
            let play = play(8_192, max_combo);
            let unchanged = attributes.unchanged_estimates(&play);
            let widened = attributes.estimates(&play);
            assert_eq!(
                unchanged.score_based.map(f64::to_bits),
                widened.score_based.map(f64::to_bits)
            );
        }
    }
}

/// The product as a whole number, over the sum of the formula.
#[test]
fn the_product_is_exact() {
    for combo in [46_341, 46_342, 65_536, 100_000] {
        let attributes = Original::new(&of_combo(combo)).attributes(8_192);
        let steps = attributes.miss_steps(&play(8_192, 1));
        let product = (combo as i128 - 2) * combo as i128;
        // The multiplier is a factor of the points, so that the quotient is a whole number.
        let points = attributes.combo_score / (12 * i64::from(attributes.multiplier));
        let sum = combo as i64 + 2 * (points - 1);
        assert_eq!(steps.relevant_combo_per_object, product as f64 / sum as f64);
    }
}

/// The most that a map has, in ticks and in repeats, at the multiplier 7: each sum is worked out here,
/// and in the original none leaves its type, whatever a play has.
#[test]
fn nothing_else_leaves_its_type() {
    for (nested, points) in [("t", 10), ("r", 30)] {
        let list = nested.repeat(999) + "e";
        let largest = map(12.0, vec![slider(0.0, &list); 8_192]);
        let original = Original::new(&largest);
        let a = original.attributes(8_192);
        assert_eq!(
            (a.objects, a.multiplier, a.max_combo),
            (8_192, 7, 8_200_192)
        );
        assert_eq!(a.accuracy_score, 8_192 * (30 + 999 * points + 30 + 300));
        // The combo before each end is 1,001 more than before the last.
        let before_ends = 1_001 * (8_192 * 8_193 / 2) - 8_192;
        assert_eq!(a.combo_score, 12 * 7 * before_ends);
        for passed in [8_192, 8_191, 1] {
            let a = original.attributes(passed);
            for play in extreme_plays(passed as u16, a.max_combo) {
                a.estimates(&play);
                if play.score_is_due() {
                    a.miss_steps(&play);
                }
            }
        }
    }
}

/// The ends of each field, as far as the map allows them.
fn extreme_plays(passed: u16, most: u32) -> Vec<Play> {
    let mut plays = Vec::new();
    for max_combo in [0, 1, most / 2, most - 1, most] {
        for [n300, n100, n50, misses] in [
            [passed, 0, 0, 0],
            [0, passed, 0, 0],
            [0, 0, passed, 0],
            [0, 0, 0, passed],
            [0, 0, 0, 1],
            [0, 0, 0, 0],
        ] {
            for score in [None, Some(0), Some(1), Some(u32::MAX)] {
                for origin in [
                    Origin::Stable,
                    Origin::WithSliderAcc,
                    Origin::WithoutSliderAcc,
                ] {
                    for is_hit in [false, true] {
                        let is_held = origin == Origin::WithSliderAcc;
                        let hits = |most: u32| match (is_hit, is_held) {
                            (false, _) => 0,
                            (true, true) => most,
                            (true, false) => u32::MAX,
                        };
                        plays.push(Play {
                            passed,
                            max_combo,
                            n300,
                            n100,
                            n50,
                            misses,
                            large_tick_hits: hits(999 * u32::from(passed)),
                            small_tick_hits: if is_hit { u32::MAX } else { 0 },
                            slider_end_hits: hits(passed.into()),
                            origin,
                            score,
                            ..Play::default()
                        });
                    }
                }
            }
        }
    }
    plays
}

/// The plays that a row of the table gives, those of its file first.
fn plays_of(row: &Row, map: &MapFile) -> Vec<Play> {
    let bodies = match &row.kind {
        Kind::Score { play, .. } | Kind::Read { play, .. } => vec![*play],
        Kind::Heat { plays, .. } => plays.clone(),
        _ => vec![],
    };
    let given = bodies.iter().map(|body| {
        let mut record = [0; PLAY_RECORD];
        record[2..].copy_from_slice(body);
        read_play(&record).expect("a play")
    });
    map.plays.iter().cloned().chain(given).collect()
}

/// The rows of the table that are there for an estimate between 1 and its cap have one.
#[test]
fn rows_with_a_rest_are_inside() {
    let table = include_str!("../../vectors/refusals.txt");
    let rows = parse_table(table).expect("a table");
    let rests = rows.iter().filter(|row| row.name.ends_with("-with-a-rest"));
    let mut above = 0;
    for row in rests {
        let map = read_library(&row.file).expect("an accepted file");
        let original = Original::new(&map);
        let is_inside = |play: &Play| {
            let a = original.attributes(play.passed.into());
            // A row of a heat has a play beyond its map too.
            play.max_combo <= a.max_combo
                && a.estimates(play).score_based.is_some_and(|value| {
                    value > 1.0 && value < a.miss_steps(play).maximum_miss_count
                })
        };
        assert!(plays_of(row, &map).iter().any(is_inside), "{}", row.name);
        above += u32::from(is_marathon(&map));
    }
    assert!(above >= 6, "{above}");
}
