//! Build, edit and read on a board beside plain Rust's board, the reading of the file and the Rust's walk.

use std::hint::black_box;

use oracle::{map::Play, values::Original};
use popejoanplum::sys;

use crate::{
    answer::{Answer, BreaksAnswer},
    cases::{Broken, Case, Turns},
    lent::Lent,
    measure::Samples,
    proved::{self, GOOD},
};

/// Edits or reads in a sample.
const CALLS: usize = 1_024;

/// Nanoseconds of one call of ours and of plain Rust.
#[derive(Clone, Copy, Debug)]
pub struct Pair {
    pub ours: f64,
    pub plain: f64,
}

impl From<[f64; 2]> for Pair {
    fn from([ours, plain]: [f64; 2]) -> Self {
        Self { ours, plain }
    }
}

/// Reads of the same plays without factors and with them.
#[derive(Clone, Copy, Debug)]
pub struct FactorTimes {
    pub alone: Pair,
    pub with: Pair,
}

/// Nanoseconds of each call on a map of some size.
#[derive(Clone, Copy, Debug)]
pub struct BoardTimes {
    pub size: usize,
    pub build: Pair,
    pub edit: Pair,
    pub read_all: Pair,
    pub read_spread: Pair,
    pub read_nearly: Pair,
    pub factors_all: FactorTimes,
    pub factors_spread: FactorTimes,
    pub read_map: f64,
    pub score_map: f64,
    /// The Rust's values of a play that passes all objects.
    pub walk: f64,
}

pub fn measure(case: &Case, samples: Samples) -> BoardTimes {
    let original = Original::new(&case.edited);
    let board = checked(case, &original);
    let [read_map, score_map] = readings(case, samples);
    let [build, plain_build, walk] = whole_map(case, &original, samples);
    let (random, in_order) = (Turns::random, Turns::in_order);
    let reads = |plays: &[Play], turns: fn(usize) -> Turns| {
        self::reads(case, &board, plays, turns(plays.len()), samples)
    };
    BoardTimes {
        size: case.size,
        build: [build, plain_build].into(),
        edit: edits(case, &board, samples),
        read_all: reads(&case.all_passed, random),
        read_spread: reads(&case.spread, random),
        read_nearly: reads(&case.nearly_all, in_order),
        factors_all: factor_reads(case, &board, &case.broken_all_passed, samples),
        factors_spread: factor_reads(case, &board, &case.broken_spread, samples),
        read_map,
        score_map,
        walk,
    }
}

/// The board behind all edits. Each call that will be measured gives the same on each side.
fn checked(case: &Case, original: &Original) -> Lent {
    assert!(case.map.breaks.is_empty(), "the reads are given no breaks");
    let mut board = Lent::new(case.size);
    let mut plain = board.clone();
    assert_eq!(board.build(&case.file), GOOD);
    assert_eq!(plain.plain_build(&case.file), Ok(()));
    assert!(board == plain, "the boards differ behind a build");
    assert_eq!(proved::read_map(&case.file).objects, case.size as u64);
    assert_eq!(proved::score_map(&case.file).status, 0);
    for edit in &case.edits {
        assert_eq!(board.edit(edit), GOOD);
        assert_eq!(plain.plain_edit(edit), Ok(()));
    }
    assert!(board == plain, "the boards differ behind the edits");
    for plays in [&case.all_passed, &case.spread, &case.nearly_all] {
        check_reads(case, original, &board, plays);
    }
    for given in [&case.broken_all_passed, &case.broken_spread] {
        check_factor_reads(case, original, &board, given);
    }
    board
}

fn check_reads(case: &Case, original: &Original, board: &Lent, plays: &[Play]) {
    let settings = &case.map.settings;
    for play in plays {
        let attributes = original.attributes(play.passed.into());
        let due: Answer = (&attributes, &attributes.estimates(play)).into();
        let ours = board.read(proved::settings(settings), proved::play(play));
        assert_eq!(Answer::from(ours), due);
        assert_eq!(Answer::from(board.plain_read(settings, play)), due);
    }
}

/// The plays are those that they should be: each has breaks by each factor.
fn check_factor_reads(case: &Case, original: &Original, board: &Lent, given: &[Broken]) {
    let settings = &case.map.settings;
    for Broken { play, factors } in given {
        let attributes = original.attributes(play.passed.into());
        let estimates = attributes.estimates(play);
        let breaks = attributes.slider_breaks(play, &estimates, *factors);
        assert!(breaks.aim > 0.0 && breaks.speed > 0.0, "{breaks:?}");
        let (our_play, our_factors) = (proved::play(play), proved::factors(*factors));
        let alone = board.read(proved::settings(settings), our_play);
        assert_eq!(Answer::from(alone), (&attributes, &estimates).into());
        let due: BreaksAnswer = (&attributes, &estimates, &breaks).into();
        let ours = board.read_breaks(proved::settings(settings), our_play, our_factors);
        assert_eq!(BreaksAnswer::from(ours), due);
        let plain = board.plain_read_breaks(settings, play, *factors);
        assert_eq!(BreaksAnswer::from(plain), due);
    }
}

/// The two calls that read the file, by themselves: each comes behind the other, so that neither finds the branches of
/// a third side in the processor.
fn readings(case: &Case, samples: Samples) -> [f64; 2] {
    samples.medians(
        calls(case.size),
        [
            &mut || {
                black_box(proved::read_map(black_box(&case.file)));
            },
            &mut || {
                black_box(proved::score_map(black_box(&case.file)));
            },
        ],
    )
}

/// Our build, plain Rust's, and the Rust's walk.
fn whole_map(case: &Case, original: &Original, samples: Samples) -> [f64; 3] {
    let (mut ours, mut plain) = (Lent::new(case.size), Lent::new(case.size));
    let mut turns = Turns::random(case.all_passed.len());
    let medians = samples.medians(
        calls(case.size),
        [
            &mut || {
                black_box(ours.build(black_box(&case.file)));
            },
            &mut || {
                let built = plain.plain_build(black_box(&case.file));
                black_box(built).expect("an accepted file");
            },
            &mut || {
                let play = &case.all_passed[turns.next()];
                black_box(original.widened_estimates(black_box(play)));
            },
        ],
    );
    assert!(ours == plain, "the boards differ behind the builds");
    medians
}

fn edits(case: &Case, board: &Lent, samples: Samples) -> Pair {
    let (mut ours, mut plain) = (board.clone(), board.clone());
    let turns = Turns::random(case.edits.len());
    let (mut our_turns, mut plain_turns) = (turns.clone(), turns);
    let medians = samples.medians(
        CALLS,
        [
            &mut || {
                let edit = black_box(&case.edits[our_turns.next()]);
                black_box(ours.edit(edit));
            },
            &mut || {
                let edit = black_box(&case.edits[plain_turns.next()]);
                black_box(plain.plain_edit(edit)).expect("an accepted edit");
            },
        ],
    );
    assert!(ours == plain, "the boards differ behind the edits");
    medians.into()
}

/// Each side takes the same plays in the same order, the plays in its own form.
fn reads(case: &Case, board: &Lent, plays: &[Play], turns: Turns, samples: Samples) -> Pair {
    let plain_settings = &case.map.settings;
    let settings = proved::settings(plain_settings);
    let our_plays: Vec<sys::Play> = plays.iter().map(proved::play).collect();
    let (mut our_turns, mut plain_turns) = (turns.clone(), turns);
    let medians = samples.medians(
        CALLS,
        [
            &mut || {
                let play = black_box(our_plays[our_turns.next()]);
                black_box(board.read(settings, play));
            },
            &mut || {
                let play = black_box(&plays[plain_turns.next()]);
                black_box(&board.plain_read(plain_settings, play));
            },
        ],
    );
    medians.into()
}

/// Both kinds of reads take the same plays in the same order, in turns.
fn factor_reads(case: &Case, board: &Lent, given: &[Broken], samples: Samples) -> FactorTimes {
    let plain_settings = &case.map.settings;
    let settings = proved::settings(plain_settings);
    let our = |given: &Broken| (proved::play(&given.play), proved::factors(given.factors));
    let our_given: Vec<(sys::Play, sys::SliderFactors)> = given.iter().map(our).collect();
    let [mut first, mut second, mut third, mut fourth] =
        [(); 4].map(|()| Turns::random(given.len()));
    let [alone, with, plain_alone, plain_with] = samples.medians(
        CALLS,
        [
            &mut || {
                let (play, _) = black_box(our_given[first.next()]);
                black_box(board.read(settings, play));
            },
            &mut || {
                let (play, factors) = black_box(our_given[second.next()]);
                black_box(board.read_breaks(settings, play, factors));
            },
            &mut || {
                let Broken { play, .. } = black_box(&given[third.next()]);
                black_box(&board.plain_read(plain_settings, play));
            },
            &mut || {
                let Broken { play, factors } = black_box(&given[fourth.next()]);
                black_box(&board.plain_read_breaks(plain_settings, play, *factors));
            },
        ],
    );
    FactorTimes {
        alone: [alone, plain_alone].into(),
        with: [with, plain_with].into(),
    }
}

/// Calls in a sample that take all objects.
pub fn calls(size: usize) -> usize {
    20_000 / size + 1
}
