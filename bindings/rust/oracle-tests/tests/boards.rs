//! Lists of edits and reads on a board, beside the oracle, which answers from the map alone.

use std::thread;

use oracle::{
    board,
    calls::Call,
    encode::encode,
    generate::{breaks, calls::list, random::Random},
    map::{MapFile, Play},
    reader::{read_library, read_object},
    values::Original,
};
use oracle_tests::{
    answer, breaks_answer, due, due_answer, due_breaks_answer, factors, has_breaks, is_marathon,
    object, play, refused,
};
use popejoanplum::Board;

/// How often each number was met, with 0 for a good call.
#[derive(Default)]
struct Met {
    builds: [u32; 14],
    edits: [u32; 14],
    reads: [u32; 14],
    factor_reads: [u32; 15],
    /// Reads whose play has slider breaks.
    broken: u32,
    /// Reads with a score-based estimate above the combo that the original's product holds.
    marathons: u32,
}

/// An accepted edit's map, or the number of the refusal. A board is always called with its map's
/// count, which leaves out 6 and 11 of document 01's order.
fn edited(map: &MapFile, place: usize, record: &[u8]) -> Result<MapFile, u8> {
    if place >= map.objects.len() {
        return Err(12);
    }
    let mut changed = map.clone();
    changed.objects[place] = read_object(record)?;
    match read_library(&encode(&changed)) {
        Ok(_) => Ok(changed),
        Err(refusal) => Err(refusal.number),
    }
}

fn is_board_of(board: &Board, map: &MapFile) {
    assert_eq!(board.len(), map.objects.len());
    assert_eq!(board.is_empty(), map.objects.is_empty());
    assert_eq!(board.words(), board::board(&map.objects));
    let bits = |starts: &[f64]| {
        starts
            .iter()
            .map(|start| start.to_bits())
            .collect::<Vec<_>>()
    };
    assert_eq!(bits(board.starts()), bits(&board::starts(&map.objects)));
    assert_eq!(board.settings(), oracle_tests::settings(&map.settings));
    assert_eq!(
        board.breaks().collect::<Vec<_>>(),
        oracle_tests::map(map).breaks
    );
}

/// A board, its map and the original's values of it.
type Built = (Board, MapFile, Original);

/// A read of a play, then with factors beside it.
fn read((board, map, original): &Built, given: &Play, r: &mut Random, met: &mut Met) {
    let number = |refused: Option<&(u8, usize)>| refused.map_or(0, |&(number, _)| number.into());
    let due = due_answer(map, original, given);
    assert_eq!(answer(board.read(&play(given))), due);
    met.reads[number(due.as_ref().err())] += 1;
    let is_counted = due.is_ok() && is_marathon(original, given);
    met.marathons += u32::from(is_counted);

    let beside = breaks::factors(r);
    let due = due_breaks_answer(map, original, given, beside);
    let ours = board.read_breaks(&play(given), &factors(beside));
    assert_eq!(breaks_answer(ours), due);
    met.factor_reads[number(due.as_ref().err())] += 1;
    met.broken += u32::from(has_breaks(&due));
}

/// The oracle's list as far as a board of ours can be called so.
fn replay(calls: &[Call], r: &mut Random, met: &mut Met) {
    let mut built: Option<Built> = None;
    for call in calls {
        match (call, &mut built) {
            (Call::Build { file, .. }, _) => {
                let ours = Board::build(file);
                built = match read_library(file) {
                    Err(refusal) => {
                        assert_eq!(refused(&ours.unwrap_err()), due(&refusal));
                        met.builds[usize::from(refusal.number)] += 1;
                        None
                    }
                    Ok(map) => {
                        let map = MapFile {
                            plays: Vec::new(),
                            ..map
                        };
                        let ours = ours.expect("an accepted file");
                        is_board_of(&ours, &map);
                        met.builds[0] += 1;
                        let original = Original::new(&map);
                        Some((ours, map, original))
                    }
                };
            }
            (Call::Edit { place, record, .. }, Some((board, map, original))) => {
                let place = *place as usize;
                let due = edited(map, place, record);
                let mut other = board.clone();
                let edit = board.edit_record(place, record);
                // The same edit by its object, where it is one.
                let by_object = read_object(record).map(|o| other.edit(place, &object(&o)));
                let number = due.as_ref().map_or_else(|&number| number, |_| 0);
                let is_due = |edit: Result<(), popejoanplum::Error>| match number {
                    0 => edit == Ok(()),
                    number => edit.is_err_and(|error| refused(&error) == (number, 0)),
                };
                assert!(is_due(edit), "{edit:?}, due was {number}");
                if let Ok(edit) = by_object {
                    assert!(is_due(edit), "{edit:?}, due was {number}");
                    assert_eq!(other.words(), board.words());
                }
                met.edits[usize::from(number)] += 1;
                if let Ok(changed) = due {
                    *original = Original::new(&changed);
                    *map = changed;
                }
            }
            (Call::Read { play, .. }, Some(built)) => read(built, play, r, met),
            (Call::Board, Some((board, map, _))) => is_board_of(board, map),
            (_, None) => {}
        }
    }
}

#[test]
fn edits_and_reads() {
    let mut met = Met::default();
    for index in 0..700 {
        replay(&list(41, index), &mut Random::new(42, index), &mut met);
    }
    let Met {
        builds,
        edits,
        reads,
        factor_reads,
        broken,
        marathons,
    } = met;
    println!(
        "builds {builds:?}\nedits  {edits:?}\nreads  {reads:?}, with factors {factor_reads:?}"
    );
    assert!(builds[0] > 600 && builds[2..].iter().sum::<u32>() > 2);
    for number in [0, 2, 3, 4, 5, 6, 7, 12] {
        assert!(edits[number] > 20, "{number}: {edits:?}");
    }
    for number in [0, 8, 9] {
        assert!(reads[number] > 20, "{number}: {reads:?}");
    }
    for number in [0, 8, 9, 14] {
        assert!(factor_reads[number] > 20, "{number}: {factor_reads:?}");
    }
    assert!(marathons > 20, "{marathons} with an estimate above 46,341");
    assert!(broken > 100, "{broken} with breaks");
}

#[test]
fn a_board_each_in_several_threads() {
    thread::scope(|scope| {
        for seed in 50..54 {
            scope.spawn(move || {
                for index in 0..60 {
                    let r = &mut Random::new(seed, index);
                    replay(&list(seed, index), r, &mut Met::default());
                }
            });
        }
    });
}

/// Boards go from thread to thread, and are shared by them.
#[test]
fn a_board_read_by_several_threads() {
    fn goes<T: Send + Sync>(_: &T) {}
    let map = oracle::generate::mixed::mixed_map(500);
    let board = Board::from_map(&oracle_tests::map(&map)).unwrap();
    goes(&board);
    let original = Original::new(&map);
    let answers: Vec<_> = thread::scope(|scope| {
        let threads: Vec<_> = (0..4)
            .map(|thread| {
                let board = &board;
                let mut given = map.plays[0].clone();
                scope.spawn(move || {
                    let passed = (0..500).filter(move |passed| passed % 4 == thread);
                    passed
                        .map(|passed| {
                            given.passed = passed;
                            given.n300 = passed.saturating_sub(6);
                            (given.clone(), answer(board.read(&play(&given))))
                        })
                        .collect::<Vec<_>>()
                })
            })
            .collect();
        threads
            .into_iter()
            .flat_map(|thread| thread.join().unwrap())
            .collect()
    });
    assert_eq!(answers.len(), 500);
    for (given, answered) in answers {
        assert_eq!(answered, due_answer(&map, &original, &given));
    }
}
