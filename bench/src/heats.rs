//! The plays of a heat in one call beside as many calls on one play each.

use std::hint::black_box;

use oracle::{encode::encode, values::Original};
use popejoanplum::sys;

use crate::{
    answer::Answer,
    cases::{self, HEAT_PLAYS, Heat, Turns},
    measure::Series,
    proved,
};

/// Of the maps on which heats are measured.
const SIZES: [usize; 2] = [1_000, 8_192];

/// Heats on different files of a size, of which each call gives the right values.
pub struct Heats {
    name: &'static str,
    size: usize,
    given: Vec<Given>,
}

/// A file and the plays of a heat on its map, whose outcomes are held to the Rust's values and to those of calls on one
/// play.
pub struct Given {
    pub file: Vec<u8>,
    pub plays: Vec<sys::Play>,
}

/// Nanoseconds.
#[derive(Clone, Copy, Debug)]
pub struct HeatTimes {
    /// What the plays passed.
    pub name: &'static str,
    pub size: usize,
    /// How many files are taken in turn.
    pub files: usize,
    /// Of all plays in one call.
    pub heat: f64,
    /// Of a call on each play.
    pub calls: f64,
    /// Of a call on one play.
    pub call: f64,
}

pub fn heats() -> Vec<Heats> {
    type Kind = (&'static str, fn(usize) -> Vec<Heat>);
    let kinds: [Kind; 2] = [
        (cases::WHOLE_HEATS, cases::whole_heats),
        ("counts all over the map", cases::spread_heats),
    ];
    let of_kind = |(name, heats): Kind| {
        SIZES.map(|size| Heats {
            name,
            size,
            given: heats(size).iter().map(Given::checked).collect(),
        })
    };
    kinds.into_iter().flat_map(of_kind).collect()
}

impl Given {
    pub fn checked(heat: &Heat) -> Self {
        let original = Original::new(&heat.map);
        let file = encode(&heat.map);
        let plays: Vec<sys::Play> = heat.plays.iter().map(proved::play).collect();
        let mut outcomes = [sys::PlayAnswer::default(); HEAT_PLAYS];
        assert_eq!(proved::heat(&file, &plays, &mut outcomes), proved::GOOD);
        for ((theirs, ours), outcome) in heat.plays.iter().zip(&plays).zip(outcomes) {
            let attributes = original.attributes(theirs.passed.into());
            let due: Answer = (&attributes, &attributes.estimates(theirs)).into();
            assert_eq!(Answer::from(outcome), due);
            assert_eq!(Answer::from(proved::score_play(&file, *ours)), due);
        }
        Self { file, plays }
    }
}

impl Heats {
    /// Each side starts at another file, so that none meets what the side before it has just taught the processor.
    pub fn measure(&self, series: Series) -> HeatTimes {
        let samples = match self.size * HEAT_PLAYS {
            0..100_000 => series.samples,
            _ => series.few,
        };
        let files = self.given.len();
        let [mut first, mut second, mut third] =
            [0, 1, 2].map(|side| Turns::in_order(files).skip(side * files / 3));
        let mut places = Turns::in_order(HEAT_PLAYS);
        let mut outcomes = [sys::PlayAnswer::default(); HEAT_PLAYS];
        let [heat, calls, call] = samples.medians(
            1,
            [
                &mut || {
                    let Given { file, plays } = black_box(&self.given[first.next()]);
                    black_box(proved::heat(file, plays, black_box(&mut outcomes)));
                },
                &mut || {
                    let Given { file, plays } = black_box(&self.given[second.next()]);
                    for play in plays {
                        black_box(proved::score_play(file, *play));
                    }
                },
                &mut || {
                    let Given { file, plays } = black_box(&self.given[third.next()]);
                    black_box(proved::score_play(file, plays[places.next()]));
                },
            ],
        );
        HeatTimes {
            name: self.name,
            size: self.size,
            files,
            heat,
            calls,
            call,
        }
    }
}
