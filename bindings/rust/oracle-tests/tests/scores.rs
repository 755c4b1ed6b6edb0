//! Scores from files and from data, beside the Rust that the library is ported from.

use oracle::{
    breaks::{Frame, Given},
    encode::encode,
    generate::{self, breaks, calls, damage::damaged_file, random::Random},
    reader::{read_library, read_play},
    values::Original,
};
use oracle_tests::{
    AttributesBits, answer, breaks_answer, due, due_answer, due_breaks_answer, due_score, factors,
    has_breaks, is_marathon, map_file, refused, score_bits,
};
use popejoanplum::{
    Board, Error, HEAT_PLAYS, Map, MapFile, Object, ObjectKind, Score, SliderFactors, heat,
    heat_into, listing, play_scores, read_map, refusal_line, score_map, score_play, score_play_at,
    score_play_breaks,
};

/// Good files of a seed, with the oracle's map and its bytes.
fn good_files(count: u64) -> impl Iterator<Item = (oracle::map::MapFile, Vec<u8>)> {
    (0..count).map(|index| {
        let map = generate::map_file(31, index);
        let bytes = encode(&map);
        (map, bytes)
    })
}

/// Damaged files of a seed; some of them are accepted.
fn damaged_files(count: u64) -> impl Iterator<Item = Vec<u8>> {
    (0..count).map(|index| damaged_file(32, index).0)
}

#[test]
fn scores_of_accepted_files() {
    let mut plays = 0;
    for (map, bytes) in good_files(2_000) {
        let original = Original::new(&map);
        let attributes = score_map(&bytes).expect("an accepted file");
        let due: AttributesBits = (&original.attributes(map.objects.len())).into();
        assert_eq!(AttributesBits::from(&attributes), due);
        let scores = play_scores(&bytes);
        assert_eq!(scores.len(), map.plays.len());
        let scores: Vec<Score> = scores.map(Result::unwrap).collect();
        assert_eq!(scores.len(), map.plays.len());
        for (play, score) in map.plays.iter().zip(&scores) {
            assert_eq!(score_bits(score), due_score(&original, play));
        }
        plays += scores.len();
    }
    assert!(plays > 2_000, "{plays} plays");
}

#[test]
fn an_index_without_a_play_is_no_refusal() {
    for (map, bytes) in good_files(200) {
        for (index, play) in map.plays.iter().enumerate() {
            let score = score_play_at(&bytes, index).expect("an accepted file");
            let score = score.map(|score| score_bits(&score));
            assert_eq!(score, Some(due_score(&Original::new(&map), play)));
        }
        for index in [map.plays.len(), usize::MAX] {
            assert_eq!(score_play_at(&bytes, index), Ok(None));
        }
    }
}

/// The plays are those of reads in the oracle's lists of calls, each with the map as it then is: good
/// ones, and refused by 8 and 9.
fn plays_beside_maps(mut visit: impl FnMut(&oracle::map::MapFile, &oracle::map::Play)) {
    for index in 0..250 {
        let mut list = oracle::calls::List::default();
        for call in calls::list(33, index) {
            if let oracle::calls::Call::Read { play, is_own, .. } = &call
                && *is_own
            {
                visit(list.map().expect("an accepted build"), play);
            } else if !matches!(call, oracle::calls::Call::Board) {
                list.answer(&call).expect("a call that a list may have");
            }
        }
    }
}

fn number<T>(due: &Result<T, (u8, usize)>) -> usize {
    due.as_ref()
        .map_or_else(|&(number, _)| number.into(), |_| 0)
}

#[test]
fn scores_of_plays_beside_a_map() {
    let (mut met, mut marathons) = ([0_u32; 10], 0);
    plays_beside_maps(|map, play| {
        let original = Original::new(map);
        let due = due_answer(map, &original, play);
        marathons += u32::from(due.is_ok() && is_marathon(&original, play));
        let play = oracle_tests::play(play);
        let ours = oracle_tests::map(map);
        assert_eq!(answer(ours.score_play(&play)), due);
        assert_eq!(answer(score_play(&encode(map), &play)), due);
        met[number(&due)] += 1;
    });
    for number in [0, 8, 9] {
        assert!(met[number] > 10, "{met:?}");
    }
    assert!(marathons > 10, "{marathons} with an estimate above 46,341");
}

/// Heats of each length, of the plays that the oracle gives beside a file, some of them more than once:
/// the outcomes are those of the plays alone, refused ones among them, in both forms.
#[test]
fn heats_on_a_map() {
    let (mut met, mut marathons) = ([0_u32; 10], 0);
    for index in 0..1_000 {
        let Frame { given, file } = breaks::frame(36, index);
        let Ok(map) = read_library(&file) else {
            continue;
        };
        let original = Original::new(&map);
        let plays = given
            .iter()
            .filter_map(|given| read_play(&given.record).ok());
        let mut plays: Vec<_> = plays.collect();
        // A flag that is none, so that 8 is met too.
        plays
            .iter_mut()
            .skip(2)
            .step_by(5)
            .for_each(|play| play.flags |= 512);
        let length = index as usize % (HEAT_PLAYS + 1);
        let plays = || plays.iter().cycle().take(length);
        let due: Vec<_> = plays()
            .map(|play| due_answer(&map, &original, play))
            .collect();
        let ours: Vec<_> = plays().map(oracle_tests::play).collect();
        let given = heat(&file, &ours).expect("an accepted file");
        assert_eq!(given.into_iter().map(answer).collect::<Vec<_>>(), due);
        let mut lent = [Ok(Score::default()); HEAT_PLAYS];
        heat_into(&file, &ours, &mut lent).expect("an accepted file");
        assert_eq!(lent.map(answer)[..due.len()], due);
        due.iter().for_each(|due| met[number(due)] += 1);
        let scored = plays().zip(&due).filter(|(_, due)| due.is_ok());
        marathons += scored
            .filter(|(play, _)| is_marathon(&original, play))
            .count();
    }
    for number in [0, 8, 9] {
        assert!(met[number] > 10, "{met:?}");
    }
    assert!(marathons > 10, "{marathons} with an estimate above 46,341");
}

/// With factors a play gets what it gets without them, then 14, then the original's breaks.
#[test]
fn slider_breaks_of_plays_beside_a_map() {
    let (mut met, mut broken) = ([0_u32; 15], 0);
    let r = &mut Random::new(34, 0);
    plays_beside_maps(|map, play| {
        let given = breaks::factors(r);
        let due = due_breaks_answer(map, &Original::new(map), play, given);
        let (play, given) = (oracle_tests::play(play), factors(given));
        let ours = oracle_tests::map(map).score_play_breaks(&play, &given);
        assert_eq!(breaks_answer(ours), due);
        let ours = score_play_breaks(&encode(map), &play, &given);
        assert_eq!(breaks_answer(ours), due);
        met[number(&due)] += 1;
        broken += u32::from(has_breaks(&due));
    });
    for number in [0, 8, 9, 14] {
        assert!(met[number] > 10, "{met:?}");
    }
    assert!(broken > 50, "{broken} with breaks");
}

/// The oracle's plays with factors, most of which are made such that they have breaks.
#[test]
fn slider_breaks_of_plays_that_have_them() {
    let mut broken = 0;
    for index in 0..2_000 {
        let Frame { given, file } = breaks::frame(35, index);
        let Ok(map) = read_library(&file) else {
            continue;
        };
        let original = Original::new(&map);
        for Given {
            factors: given,
            record,
        } in given
        {
            let Ok(play) = read_play(&record) else {
                continue;
            };
            let due = due_breaks_answer(&map, &original, &play, given);
            let ours = score_play_breaks(&file, &oracle_tests::play(&play), &factors(given));
            assert_eq!(breaks_answer(ours), due);
            broken += u32::from(has_breaks(&due));
        }
    }
    assert!(broken > 1_000, "{broken} with breaks");
}

/// A damaged file is refused alike by every call that takes one.
#[test]
fn refusals_of_damaged_files() {
    let mut met = [0_u32; 10];
    for bytes in damaged_files(6_000) {
        let Err(refusal) = read_library(&bytes) else {
            assert!(score_map(&bytes).is_ok());
            met[0] += 1;
            continue;
        };
        met[usize::from(refusal.number)] += 1;
        let due = due(&refusal);
        let given = popejoanplum::Play::default();
        let wrong = SliderFactors {
            aim: f64::NAN,
            speed: -1.0,
        };
        for error in [
            score_map(&bytes).unwrap_err(),
            score_play(&bytes, &given).unwrap_err(),
            score_play_breaks(&bytes, &given, &SliderFactors::default()).unwrap_err(),
            score_play_breaks(&bytes, &given, &wrong).unwrap_err(),
            heat(&bytes, &[]).unwrap_err(),
            heat(&bytes, &[given; HEAT_PLAYS]).unwrap_err(),
            heat(&bytes, &[given; HEAT_PLAYS + 1]).unwrap_err(),
            heat_into(&bytes, &[given], &mut []).unwrap_err(),
            score_play_at(&bytes, 0).unwrap_err(),
            score_play_at(&bytes, usize::MAX).unwrap_err(),
            Map::from_bytes(&bytes).unwrap_err(),
            MapFile::from_bytes(&bytes).unwrap_err(),
            Board::build(&bytes).unwrap_err(),
        ] {
            assert_eq!(refused(&error), due);
        }
        let scores: Vec<Result<Score, Error>> = play_scores(&bytes).collect();
        assert_eq!(scores.len(), 1);
        assert_eq!(refused(scores[0].as_ref().unwrap_err()), due);
    }
    for number in [0, 2, 3, 4, 5, 6, 7, 8, 9] {
        assert!(met[number] > 10, "{met:?}");
    }
}

/// Without 9 the first refusal is the same, unless it was this.
#[test]
fn reading_without_scores() {
    for (map, bytes) in good_files(300) {
        let info = read_map(&bytes).expect("an accepted file");
        assert_eq!(
            (info.breaks, info.objects),
            (map.breaks.len(), map.objects.len())
        );
        let settings = oracle_tests::settings(&map.settings);
        assert_eq!(
            [info.settings.hp, info.settings.od, info.settings.cs].map(f32::to_bits),
            [settings.hp, settings.od, settings.cs].map(f32::to_bits)
        );
    }
    for bytes in damaged_files(3_000) {
        let read = read_map(&bytes).map_err(|error| refused(&error));
        match read_library(&bytes) {
            Ok(map) => assert_eq!(read.unwrap().objects, map.objects.len()),
            Err(refusal) if refusal.number > 8 => {
                assert!(read.is_ok() || read.unwrap_err().1 > refusal.offset);
            }
            Err(refusal) => assert_eq!(read, Err(due(&refusal))),
        }
    }
}

#[test]
fn files_come_back_byte_for_byte() {
    for (map, bytes) in good_files(2_000) {
        let read = MapFile::from_bytes(&bytes).expect("an accepted file");
        assert_eq!(read, map_file(&map));
        assert_eq!(read.to_bytes(), bytes);
        assert_eq!(Map::from_bytes(&bytes).as_ref(), Ok(&read.map));
        // Equal floats may have different bits: the file of the map's own data has them all.
        assert_eq!(map_file(&map).to_bytes(), bytes);
    }
    let accepted = damaged_files(3_000).filter(|bytes| read_library(bytes).is_ok());
    for bytes in accepted {
        let read = MapFile::from_bytes(&bytes).expect("an accepted file");
        assert_eq!(read.to_bytes(), bytes);
    }
}

#[test]
fn listings() {
    let files = good_files(1_000).map(|(_, bytes)| bytes);
    for bytes in files.chain(damaged_files(3_000)) {
        let ours = listing(&bytes).unwrap_or_else(|error| refusal_line(&error));
        let read = oracle::reader::read_program(&bytes);
        assert_eq!(ours, oracle::listing::listing(&read));
    }
}

/// A list that no record can hold is refused as the library refuses every list that is too long.
#[test]
fn too_many_nested_items() {
    use popejoanplum::Nested::{Tail, Tick};
    for (count, due) in [
        (1_000, None),
        (1_001, Some((6, 24))),
        (70_000, Some((6, 24))),
    ] {
        let mut nested = vec![Tick; count];
        nested[count - 1] = Tail;
        let mut map = Map {
            objects: vec![Object::circle(0.0), Object::slider(1.0, nested.clone())],
            ..Map::default()
        };
        assert_eq!(map.score().err().map(|error| refused(&error)), due);
        // A slider before it in the file has the first word.
        map.objects[0].kind = ObjectKind::Slider { nested: vec![] };
        assert_eq!(
            map.score().err().map(|error| refused(&error)),
            Some((5, 14))
        );
        let circle = Map {
            objects: vec![Object::circle(0.0)],
            ..Map::default()
        };
        let mut board = Board::from_map(&circle).unwrap();
        let edited = board.edit(0, &Object::slider(1.0, nested));
        let due = due.map(|(number, _)| (number, 0));
        assert_eq!(edited.err().map(|error| refused(&error)), due);
    }
}
