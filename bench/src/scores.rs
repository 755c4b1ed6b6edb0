//! The score of one play from the bytes of a file beside the Rust's values on objects already read.

use std::hint::black_box;

use oracle::{encode::encode, map::MapFile, values::Original};

use crate::{
    answer::Answer,
    boards::calls,
    cases::{Turns, different_maps},
    measure::Samples,
    proved,
};

/// Nanoseconds of one call.
#[derive(Clone, Copy, Debug)]
pub struct ScoreTimes {
    pub size: usize,
    /// How many files are scored in turn.
    pub files: usize,
    /// Of one file, on average.
    pub bytes: usize,
    pub ours: f64,
    pub rust: f64,
}

/// One file, again and again.
pub fn of_one(map: &MapFile, samples: Samples) -> ScoreTimes {
    of_files(std::slice::from_ref(map), samples)
}

/// Different files of a size in turn.
pub fn of_different(size: usize, samples: Samples) -> ScoreTimes {
    of_files(&different_maps(size), samples)
}

/// The score of each file's first play.
fn of_files(maps: &[MapFile], samples: Samples) -> ScoreTimes {
    let size = maps[0].objects.len();
    let files: Vec<Vec<u8>> = maps.iter().map(encode).collect();
    let originals: Vec<Original> = maps.iter().map(Original::new).collect();
    for ((map, file), original) in maps.iter().zip(&files).zip(&originals) {
        let play = &map.plays[0];
        let attributes = original.attributes(play.passed.into());
        let due: Answer = (&attributes, &attributes.estimates(play)).into();
        assert_eq!(Answer::from(proved::score_play_at(file, 0)), due);
    }
    let (mut our_turns, mut turns) = (Turns::in_order(maps.len()), Turns::in_order(maps.len()));
    let [ours, rust] = samples.medians(
        calls(size),
        [
            &mut || {
                let file = &files[our_turns.next()];
                black_box(proved::score_play_at(black_box(file), 0));
            },
            &mut || {
                let turn = turns.next();
                black_box(originals[turn].widened_estimates(black_box(&maps[turn].plays[0])));
            },
        ],
    );
    ScoreTimes {
        size,
        files: maps.len(),
        bytes: files.iter().map(Vec::len).sum::<usize>() / files.len(),
        ours,
        rust,
    }
}
