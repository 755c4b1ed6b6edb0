//! Heats beside single calls: the same outcomes, in the same order, and what is refused as a whole.

use popejoanplum::{
    Error, HEAT_PLAYS, Map, MapFile, Mods, Nested::*, Object, Origin, Play, Score, heat, heat_into,
    score_play,
};

/// Objects of each kind, as many as plays that pass different counts need.
fn map() -> Map {
    let objects = (0..HEAT_PLAYS).map(|place| {
        let start = 400.0 * place as f64;
        match place % 4 {
            0 | 1 => Object::circle(start),
            2 => Object::slider(start, [Tick, Repeat, Tick, Tail]),
            _ => Object::spinner(start, 1_400.0),
        }
    });
    Map {
        objects: objects.collect(),
        ..Map::default()
    }
}

/// Plays that all differ: half of them passed all objects.
fn plays(count: usize) -> Vec<Play> {
    let play = |place: usize| {
        let passed = if place.is_multiple_of(2) {
            HEAT_PLAYS as u16
        } else {
            1 + place as u16 % HEAT_PLAYS as u16
        };
        Play {
            passed_objects: passed,
            max_combo: 1 + place as u32 % u32::from(passed),
            n300: passed - 1,
            n100: 1,
            score: Some(100 + place as u32),
            mods: Mods::from_bits(place as u16),
            ..Play::default()
        }
    };
    (0..count).map(play).collect()
}

fn single(file: &[u8], plays: &[Play]) -> Vec<Result<Score, Error>> {
    plays.iter().map(|play| score_play(file, play)).collect()
}

fn told(error: Error) -> (u8, usize) {
    (error.number(), error.offset())
}

/// A score that no play of these has.
fn mark(place: usize) -> Result<Score, Error> {
    let mut score = Score::default();
    score.attributes.object_count = 1_000 + place as u64;
    score.estimates.accuracy = -1.5;
    Ok(score)
}

fn marks(count: usize) -> Vec<Result<Score, Error>> {
    (0..count).map(mark).collect()
}

#[test]
fn each_outcome_is_that_of_the_single_call() {
    let file = map().to_bytes();
    for count in [0, 1, 2, HEAT_PLAYS - 1, HEAT_PLAYS] {
        let plays = plays(count);
        let due = single(&file, &plays);
        assert!(due.iter().all(Result::is_ok));
        assert_eq!(heat(&file, &plays), Ok(due.clone()));
        assert_eq!(map().heat(&plays), Ok(due.clone()));
        for more in [0, 1, 7, HEAT_PLAYS] {
            let mut outcomes = marks(count + more);
            assert_eq!(heat_into(&file, &plays, &mut outcomes), Ok(()));
            assert_eq!(outcomes[..count], due);
            assert_eq!(outcomes[count..], marks(count + more)[count..]);
        }
    }
}

/// By 8 and 9, in the first place, in the middle and in the last. The combo of the map is above 46,341,
/// and refuses none.
#[test]
fn a_refused_play_is_an_outcome() {
    let nested = [vec![Tick; 999], vec![Tail]].concat();
    let long = Map {
        objects: vec![Object::slider(0.0, nested); HEAT_PLAYS],
        ..Map::default()
    };
    let file = long.to_bytes();
    let mut plays: Vec<Play> = plays(HEAT_PLAYS);
    plays[0].mods = Mods::from_bits(512);
    plays[31].max_combo = u32::MAX;
    plays[32].clock_rate = 0.0;
    plays[33] = Play {
        origin: Origin::WithSliderAcc,
        slider_end_hits: 65,
        ..plays[33]
    };
    plays[63].n300 = 64;
    let due = single(&file, &plays);
    let numbers: Vec<u8> = due
        .iter()
        .map(|outcome| outcome.map_or_else(|error| error.number(), |_| 0))
        .collect();
    for (place, number) in [(0, 8), (31, 9), (32, 8), (33, 9), (62, 0), (63, 9)] {
        assert_eq!(numbers[place], number, "{place}");
    }
    assert_eq!(numbers.iter().filter(|&&number| number == 0).count(), 59);
    let above = due[62].unwrap();
    assert_eq!(above.attributes.max_combo, 64 * 1_001);
    assert!(above.estimates.score_based.is_some());
    assert_eq!(heat(&file, &plays), Ok(due.clone()));
    let mut outcomes = marks(HEAT_PLAYS + 1);
    assert_eq!(heat_into(&file, &plays, &mut outcomes), Ok(()));
    assert_eq!(outcomes[..HEAT_PLAYS], due);
    assert_eq!(outcomes[HEAT_PLAYS], mark(HEAT_PLAYS));
}

/// Refuses the heat of as many plays in as many outcomes, which stay.
fn is_refused(file: &[u8], count: usize, room: usize, due: (u8, usize)) {
    let plays = plays(count);
    let mut outcomes = marks(room);
    let refused = heat_into(file, &plays, &mut outcomes).map_err(told);
    assert_eq!(refused, Err(due), "{count} plays, {room} outcomes");
    assert_eq!(outcomes, marks(room));
    if room >= count {
        assert_eq!(heat(file, &plays).map_err(told), Err(due));
    }
}

#[test]
fn too_many_plays_and_too_few_outcomes() {
    let file = map().to_bytes();
    for (count, room) in [(65, 65), (65, 64), (65, 100), (66, 66), (10_000, 10_000)] {
        is_refused(&file, count, room, (15, 0));
    }
    for (count, room) in [(1, 0), (2, 1), (64, 63), (64, 0), (65, 0)] {
        is_refused(&file, count, room, (15, 0));
    }
}

/// What is wrong with the file, its own plays included, comes before the count of plays, and a refused
/// play behind it.
#[test]
fn the_file_comes_first() {
    let (file, own) = (map().to_bytes(), plays(2));
    let exceeding = Play {
        max_combo: u32::MAX,
        ..own[1]
    };
    let with_plays = |plays| MapFile { map: map(), plays }.to_bytes();
    let cut = file.len() - 18;
    let refused = [
        (file[..file.len() - 1].to_vec(), (2, cut)),
        (Vec::new(), (3, 0)),
        (with_plays(vec![own[0], exceeding]), (9, file.len() + 44)),
    ];
    for (file, due) in &refused {
        for (count, room) in [(0, 0), (1, 1), (64, 64), (65, 65), (64, 63)] {
            is_refused(file, count, room, *due);
        }
    }
    // The values of a file's own plays are ignored.
    let accepted = with_plays(own.clone());
    assert_eq!(heat(&accepted, &[]), Ok(vec![]));
    let given = plays(3);
    assert_eq!(heat(&accepted, &given), Ok(single(&file, &given)));
    is_refused(&accepted, 65, 65, (15, 0));
}
