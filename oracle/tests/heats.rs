//! Heats: their frames, what a run of them has, and the answers.

mod common;

use std::collections::{BTreeMap, BTreeSet};

use common::{circle, map, slider, ticks, with_play};
use oracle::{
    encode::{encode, play_record},
    generate::{heats::heat, heats_report::labels},
    given::lines,
    heats::{Heat, MAX_PLAYS},
    map::{MapFile, Play},
    values::Original,
};

#[test]
fn a_seed_gives_the_same_heats_again() {
    let stream = |seed| -> Vec<u8> { (0..60).flat_map(|i| heat(seed, i).encode()).collect() };
    assert_eq!(stream(9), stream(9));
    assert_ne!(stream(9), stream(10));
}

#[test]
fn heats_come_back_from_their_bytes() {
    for index in 0..200 {
        let bytes = heat(4, index).encode();
        assert_eq!(Heat::decode(&bytes).expect("a heat").encode(), bytes);
    }
    let one_play = [0, 0, 0, 0, 1, 0, 0, 0];
    assert!(Heat::decode(&one_play[..7]).is_none());
    assert!(Heat::decode(&one_play).is_none());
    assert!(Heat::decode(&[&one_play[..], &[b'C'; 44]].concat()).is_none());
}

#[test]
fn a_run_meets_what_matters() {
    let mut counts = BTreeMap::<&str, u32>::new();
    for label in (0..2_000).flat_map(|index| labels(&heat(3, index))) {
        *counts.entry(label).or_default() += 1;
    }
    for label in [
        "heats beside a file with plays",
        "outcomes several short",
        "plays all refused",
        "plays refused 8",
        "plays refused 9",
        "plays refused before the first scored",
        "plays refused between scored ones",
        "plays refused behind the last scored",
        "plays scored, passed all",
        "plays scored, passed a part",
        "plays scored, passed more than the map has",
        "refused 15 by plays",
        "refused 15 by outcomes",
        "refused 15 by both",
        "refused by a play of the file",
        "refused by a play of the file, 15 due",
        "refused by the file's map",
        "refused by the file's map, 15 due",
    ] {
        let times = counts.get(label).copied().unwrap_or(0);
        assert!(times > 10, "{label}\n{counts:?}");
    }
}

/// Each edge of the plays beside each edge of the outcomes, on accepted files.
#[test]
fn a_run_meets_all_edges() {
    let met: BTreeSet<(usize, i64)> = (0..2_000)
        .map(|index| heat(6, index))
        .filter(|heat| !matches!(heat.checked(), Err(refusal) if refusal.number != 15))
        .map(|heat| {
            let plays = heat.plays.len();
            (plays, i64::from(heat.outcomes) - plays as i64)
        })
        .collect();
    for plays in [0, 1, 2, 63, 64, 65] {
        for more in [-1..=-1, 0..=0, 1..=1, 2..=100] {
            let is_met = met
                .iter()
                .any(|met| met.0 == plays && more.contains(&met.1));
            assert!(
                is_met || plays == 0 && *more.end() < 0,
                "{plays} plays, {more:?} more outcomes"
            );
        }
    }
    let is_wrapped = |&(plays, more): &(usize, i64)| plays > 0 && plays as i64 + more >= 256;
    assert!(met.iter().any(is_wrapped) && met.iter().any(|met| met.0 >= 256));
}

/// A circle, a slider and a circle, and a full combo on them.
fn three() -> (MapFile, Play) {
    let objects = vec![circle(0.0), slider(5_000.0, "trte"), circle(10_000.0)];
    let play = Play {
        passed: 3,
        n300: 3,
        max_combo: 7,
        ..Play::default()
    };
    (map(5.0, objects), play)
}

fn answer(map: &MapFile, plays: &[Play], outcomes: usize) -> String {
    let heat = Heat {
        outcomes: outcomes as u32,
        plays: plays.iter().map(play_record).collect(),
        file: encode(map),
    };
    let heat = Heat::decode(&heat.encode()).expect("a heat");
    heat.answer()
}

#[test]
fn plays_are_counted_behind_the_file() {
    let (map, play) = three();
    let count = |plays, outcomes| {
        let text = answer(&map, &vec![play.clone(); plays], outcomes);
        text.lines().next().map(str::to_owned).expect("a line")
    };
    assert_eq!(answer(&map, &[], 0), "heat 0\n");
    assert_eq!(answer(&map, &[], 9), "heat 0\n");
    assert_eq!(count(1, 0), "refused 15 at 0");
    assert_eq!(count(1, 1), "heat 1");
    assert_eq!(count(MAX_PLAYS, MAX_PLAYS - 1), "refused 15 at 0");
    assert_eq!(count(MAX_PLAYS, MAX_PLAYS), "heat 64");
    assert_eq!(count(MAX_PLAYS, 1_000), "heat 64");
    assert_eq!(count(MAX_PLAYS + 1, MAX_PLAYS + 1), "refused 15 at 0");
    assert_eq!(count(MAX_PLAYS + 1, MAX_PLAYS), "refused 15 at 0");

    // The file's own plays are checked and not scored.
    let with_good = with_play(map.clone(), play.clone());
    assert_eq!(answer(&with_good, &[], 0), "heat 0\n");
    assert_eq!(answer(&with_good, &[play], 0), "refused 15 at 0\n");
    let beyond = Play {
        max_combo: 8,
        ..Play::default()
    };
    let with_bad = with_play(map, beyond.clone());
    assert_eq!(answer(&with_bad, &[], 0), "refused 9 at 50\n");
    assert_eq!(answer(&with_bad, &vec![beyond; 65], 0), "refused 9 at 50\n");
}

#[test]
fn a_refused_play_stops_no_other() {
    let (map, play) = three();
    let part = Play {
        passed: 1,
        max_combo: 1,
        n300: 1,
        ..Play::default()
    };
    let beyond = Play {
        n300: 4,
        ..play.clone()
    };
    let flags = Play {
        flags: 512,
        ..beyond.clone()
    };
    let plays = [flags, play.clone(), beyond.clone(), part.clone(), beyond];
    let original = Original::new(&map);
    let due = format!(
        "heat 5\nrefused 8 at 0\n{}refused 9 at 0\n{}refused 9 at 0\n",
        lines(&original, 1, &play, None),
        lines(&original, 3, &part, None),
    );
    assert!(due.contains("\nattrs 1 3 2 1010 240 "), "{due}");
    assert!(due.contains("\nattrs 3 1 "), "{due}");
    assert_eq!(answer(&map, &plays, 5), due);
    assert_eq!(answer(&map, &plays, 6), due);
    // With 15 no play is looked at.
    assert_eq!(answer(&map, &plays, 4), "refused 15 at 0\n");
}

#[test]
fn plays_of_much_combo_are_scored() {
    let map = map(5.0, vec![ticks(1_000); 47]);
    let play = |passed, score| Play {
        passed,
        n300: 1,
        score,
        ..Play::default()
    };
    let plays = [play(47, Some(1)), play(46, Some(1)), play(47, None)];
    let original = Original::new(&map);
    let of_each: String = (0..3)
        .map(|index| lines(&original, index, &plays[index], None))
        .collect();
    let text = answer(&map, &plays, 3);
    assert_eq!(text, format!("heat 3\n{of_each}"));
    assert!(text.starts_with("heat 3\nattrs 0 47 "), "{text}");
    assert!(text.contains(" 47047 "), "{text}");
}
