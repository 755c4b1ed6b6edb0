//! What walking a spinner's half spins one by one takes: on whole files, in a heat and in an edit.

use std::hint::black_box;

use oracle::{encode::encode, generate::mixed::mixed_map, map::MapFile, values::Original};
use popejoanplum::sys;

use crate::{
    answer::Answer,
    boards::Pair,
    cases::{
        Edit, HEAT_PLAYS, Heat, Turns,
        spinners::{self, half_spins},
    },
    heats::Given,
    lent::Lent,
    measure::{Samples, Series},
    proved,
};

/// Of the map that is edited.
const EDITED: usize = 1_000;

/// Calls of which each gives the right values.
pub struct Spinners {
    map: Score,
    heat: HourHeat,
    edits: Vec<Edits>,
}

/// Nanoseconds of a call, and the half spins that are walked in it.
#[derive(Clone, Copy, Debug)]
pub struct Walk {
    pub time: f64,
    pub half_spins: u64,
}

impl Walk {
    pub fn of_one(&self) -> f64 {
        self.time / self.half_spins as f64
    }
}

/// A call beside the Rust's values for the same.
#[derive(Clone, Copy, Debug)]
pub struct WalkTimes {
    pub name: &'static str,
    pub objects: usize,
    pub ours: Walk,
    pub rust: Walk,
}

/// Nanoseconds of an edit.
#[derive(Clone, Copy, Debug)]
pub struct EditTimes {
    /// What it puts.
    pub name: &'static str,
    pub objects: usize,
    pub edit: Pair,
}

pub fn checked() -> Spinners {
    let edits = [
        Edits::checked("a circle", spinners::circle_edits),
        Edits::checked("a spinner of an hour", spinners::hour_edits),
    ];
    Spinners {
        map: Score::checked(spinners::most_half_spins()),
        heat: HourHeat::checked(spinners::heat_on_hours()),
        edits: edits.into(),
    }
}

impl Spinners {
    pub fn walks(&self, series: Series) -> Vec<WalkTimes> {
        vec![self.map.measure(series.few), self.heat.measure()]
    }

    pub fn edits(&self, series: Series) -> Vec<EditTimes> {
        let measure = |edits: &Edits| edits.measure(series.few);
        self.edits.iter().map(measure).collect()
    }
}

/// A map and its file.
struct Score {
    map: MapFile,
    file: Vec<u8>,
    original: Original,
}

impl Score {
    fn checked(map: MapFile) -> Self {
        let (file, original) = (encode(&map), Original::new(&map));
        let due: Answer = Ok(original.attributes(map.objects.len())).into();
        assert_eq!(Answer::from(proved::score_map(&file)), due);
        Self {
            map,
            file,
            original,
        }
    }

    fn measure(&self, samples: Samples) -> WalkTimes {
        let objects = self.map.objects.len();
        let [ours, rust] = samples.medians(
            1,
            [
                &mut || {
                    black_box(proved::score_map(black_box(&self.file)));
                },
                &mut || {
                    black_box(&self.original.attributes(black_box(objects)));
                },
            ],
        );
        let half_spins = half_spins(&self.map, objects);
        let walk = |time| Walk { time, half_spins };
        WalkTimes {
            name: "`pjp_score_map`, spinners of 600 half spins",
            objects,
            ours: walk(ours),
            rust: walk(rust),
        }
    }
}

/// Plays that passed different counts. The file is gone through once for itself and once for each of them, to its end; the
/// Rust walks what each passed.
struct HourHeat {
    heat: Heat,
    given: Given,
    original: Original,
}

impl HourHeat {
    fn checked(heat: Heat) -> Self {
        Self {
            given: Given::checked(&heat),
            original: Original::new(&heat.map),
            heat,
        }
    }

    fn measure(&self) -> WalkTimes {
        let Heat { map, plays } = &self.heat;
        let mut outcomes = [sys::PlayAnswer::default(); HEAT_PLAYS];
        let [ours, rust] = Samples::ONE.medians(
            1,
            [
                &mut || {
                    let Given { file, plays } = black_box(&self.given);
                    black_box(proved::heat(file, plays, black_box(&mut outcomes)));
                },
                &mut || {
                    for play in black_box(plays) {
                        black_box(&self.original.widened_estimates(play));
                    }
                },
            ],
        );
        let all = half_spins(map, map.objects.len());
        let passed = plays.iter().map(|play| half_spins(map, play.passed.into()));
        WalkTimes {
            name: "`pjp_heat`, 64 plays that passed 11 to 74 spinners of an hour",
            objects: map.objects.len(),
            ours: Walk {
                time: ours,
                half_spins: (1 + plays.len() as u64) * all,
            },
            rust: Walk {
                time: rust,
                half_spins: passed.sum(),
            },
        }
    }
}

/// Edits that each put the same kind of object, and the board behind them.
struct Edits {
    name: &'static str,
    edits: Vec<Edit>,
    board: Lent,
}

impl Edits {
    /// The board behind the edits is plain Rust's, and that of a build of the edited map.
    fn checked(name: &'static str, edits: fn(&mut MapFile) -> Vec<Edit>) -> Self {
        let mut map = mixed_map(EDITED);
        let mut board = Lent::new(EDITED);
        assert_eq!(board.build(&encode(&map)), proved::GOOD);
        let mut plain = board.clone();
        let edits = edits(&mut map);
        for edit in &edits {
            assert_eq!(board.edit(edit), proved::GOOD);
            assert_eq!(plain.plain_edit(edit), Ok(()));
        }
        assert!(board == plain, "the boards differ behind the edits");
        let mut built = Lent::new(EDITED);
        assert_eq!(built.build(&encode(&map)), proved::GOOD);
        assert!(board == built, "the edits lead to another board");
        Self { name, edits, board }
    }

    fn measure(&self, samples: Samples) -> EditTimes {
        let (mut ours, mut plain) = (self.board.clone(), self.board.clone());
        let turns = Turns::in_order(self.edits.len());
        let (mut our_turns, mut plain_turns) = (turns.clone(), turns);
        let medians = samples.medians(
            self.edits.len(),
            [
                &mut || {
                    let edit = black_box(&self.edits[our_turns.next()]);
                    black_box(ours.edit(edit));
                },
                &mut || {
                    let edit = black_box(&self.edits[plain_turns.next()]);
                    black_box(plain.plain_edit(edit)).expect("an accepted edit");
                },
            ],
        );
        assert!(ours == plain, "the boards differ behind the edits");
        EditTimes {
            name: self.name,
            objects: EDITED,
            edit: medians.into(),
        }
    }
}
