//! All that a series measures.

use crate::{
    boards::{self, BoardTimes},
    cases::{self, Case, SIZES},
    figure::Figure,
    heats::{self, HeatTimes, Heats},
    instructions::{self, Counts},
    measure::Series,
    own_plays::{self, OwnPlays, OwnTimes},
    reading::{self, ReadingTimes},
    scores::{self, ScoreTimes},
    spinners::{self, EditTimes, Spinners, WalkTimes},
};

pub struct Results {
    pub rounds: Vec<Round>,
    /// Or why there are none. No round changes them.
    pub counts: Result<Vec<Counts>, String>,
}

/// What one round measures. Each round has the same rows.
pub struct Round {
    /// Of one file at each size.
    pub scores: Vec<ScoreTimes>,
    /// Of different files at each size.
    pub different: Vec<ScoreTimes>,
    pub heats: Vec<HeatTimes>,
    pub boards: Vec<BoardTimes>,
    pub readings: Vec<ReadingTimes>,
    pub own_plays: Vec<OwnTimes>,
    pub spinner_walks: Vec<WalkTimes>,
    pub spinner_edits: Vec<EditTimes>,
}

/// The same row in each round.
pub struct Row<'r, T>(Vec<&'r T>);

impl<T> Row<'_, T> {
    /// What is the same in all rounds can be taken from any.
    pub fn any(&self) -> &T {
        self.0[0]
    }

    pub fn figure(&self, value: impl Fn(&T) -> f64) -> Figure {
        self.0.iter().map(|row| value(row)).collect()
    }

    /// Of what each round has measured, or none.
    pub fn figure_if(&self, value: impl Fn(&T) -> Option<f64>) -> Option<Figure> {
        let rounds: Option<Vec<f64>> = self.0.iter().map(|row| value(row)).collect();
        Some(Figure::from_iter(rounds?))
    }

    pub fn median(&self, value: impl Fn(&T) -> f64) -> f64 {
        self.figure(value).median()
    }
}

impl Results {
    pub fn rows<T>(&self, of: impl Fn(&Round) -> &[T]) -> Vec<Row<'_, T>> {
        let row = |place| Row(self.rounds.iter().map(|round| &of(round)[place]).collect());
        (0..of(&self.rounds[0]).len()).map(row).collect()
    }

    /// A figure that takes more than one row of a round.
    pub fn figure(&self, value: impl Fn(&Round) -> f64) -> Figure {
        self.rounds.iter().map(value).collect()
    }
}

/// Instructions are counted at each of the sizes that are named.
pub fn measure(series: Series, counted: &[usize]) -> Results {
    let checked = Checked {
        heats: heats::heats(),
        own_plays: own_plays::files(),
        spinners: spinners::checked(),
    };
    Results {
        rounds: (0..series.rounds)
            .map(|_| round(series, &checked))
            .collect(),
        counts: counted.iter().copied().map(instructions::measure).collect(),
    }
}

/// What is held to the right values once for all rounds, since that takes longer than to measure it.
struct Checked {
    heats: Vec<Heats>,
    own_plays: Vec<OwnPlays>,
    spinners: Spinners,
}

fn round(series: Series, checked: &Checked) -> Round {
    let Checked {
        heats,
        own_plays,
        spinners,
    } = checked;
    let samples = series.samples;
    let mut scores = Vec::new();
    let mut different = Vec::new();
    let mut boards = Vec::new();
    for size in SIZES {
        let case = Case::new(size);
        scores.push(scores::of_one(&case.map, samples));
        different.push(scores::of_different(size, samples));
        boards.push(boards::measure(&case, samples));
    }
    let files = cases::files();
    Round {
        scores,
        different,
        heats: heats.iter().map(|heats| heats.measure(series)).collect(),
        boards,
        readings: files
            .iter()
            .map(|file| reading::measure(file, samples))
            .collect(),
        own_plays: own_plays.iter().map(|file| file.measure(series)).collect(),
        spinner_walks: spinners.walks(series),
        spinner_edits: spinners.edits(series),
    }
}

/// Times as they may be, in three rounds: ours are the middle ones in the last round.
#[cfg(test)]
pub fn example() -> Results {
    let count = |size| Counts {
        size,
        read: 1_800.0,
        plain_read: 1_800.0,
        edit: 3_000.0,
        plain_edit: 2_000.0,
        walk: 200.0 * size as f64,
        alone: 1_800.0,
        with_factors: 2_000.0,
        score_map: 1_850.0 + 60.0 * size as f64,
        score_play: 2_000.0 + 60.0 * size as f64,
        heat: 80_000.0 + 60.0 * size as f64,
        spread_heat: 80_000.0 + 4_000.0 * size as f64,
    };
    Results {
        rounds: [0.5, 2.0, 1.0].map(example_round).into(),
        counts: Ok(SIZES.map(count).into()),
    }
}

/// Our times are as many times those of the round of 1.
#[cfg(test)]
fn example_round(times: f64) -> Round {
    let pair = |ours| boards::Pair {
        ours: times * ours,
        plain: 0.9 * ours,
    };
    let factors = |ours, with| boards::FactorTimes {
        alone: pair(ours),
        with: pair(with * ours),
    };
    let board = |(size, part): (usize, f64)| BoardTimes {
        size,
        build: pair(500_000.0 * part),
        edit: pair(320.0),
        read_all: pair(150.0),
        read_spread: pair(300.0),
        read_nearly: pair(500.0),
        factors_all: factors(140.0, 1.5),
        factors_spread: factors(200.0, 1.25),
        read_map: (52_000.0 * part + 1_000.0) * times,
        score_map: 50_000.0 * times * part,
        walk: 450_000.0 * part,
    };
    let score = |files: usize, ours: f64| {
        move |(size, part): (usize, f64)| ScoreTimes {
            size,
            files,
            bytes: 13 * size,
            ours: ours * times * part,
            rust: 200_000.0 * part,
        }
    };
    let reading = |name, objects| ReadingTimes {
        name,
        objects,
        bytes: 200 * objects,
        score_map: 20.0 * times * objects as f64,
        read_map: 25.0 * times * objects as f64,
        plain: 15.0 * objects as f64,
    };
    let own_plays = |name, objects, score_map, build| OwnTimes {
        name,
        objects,
        plays: 100,
        bytes: 10 * objects,
        score_map: score_map * times,
        build: build * times,
        score_play_at: 2.0 * build * times,
        list: (objects < 8_192).then_some(3.0 * build * times),
    };
    let walk = |time, half_spins| spinners::Walk { time, half_spins };
    let heat = |name, size: usize, heat| HeatTimes {
        name,
        size,
        files: 33,
        heat: heat * times,
        calls: 6e5,
        call: 1e4,
    };
    let parts = SIZES.map(|size| (size, size as f64 / 8_192.0));
    Round {
        scores: parts.map(score(1, 55_555.5)).into(),
        different: parts.map(score(33, 70_000.0)).into(),
        heats: vec![
            heat(cases::WHOLE_HEATS, 1_000, 2e4),
            heat(cases::WHOLE_HEATS, 8_192, 4e4),
            heat("others", 1_000, 8e4),
        ],
        boards: parts.map(board).into(),
        readings: vec![reading("circles", 6_000), reading(cases::LONG_SLIDERS, 283)],
        own_plays: vec![
            own_plays("circles", 3_275, 4e5, 6e5),
            own_plays("sliders", 8_192, 3e7, 2e7),
            own_plays("spinners", 75, 8e7, 1.2e8),
        ],
        spinner_walks: vec![WalkTimes {
            name: "a call",
            objects: 75,
            ours: walk(2e6 * times, 1_000_000),
            rust: walk(3e6, 1_000_000),
        }],
        spinner_edits: vec![EditTimes {
            name: "a circle",
            objects: 1_000,
            edit: pair(300.0),
        }],
    }
}

#[cfg(test)]
mod tests {
    use super::*;

    #[test]
    fn a_ratio_is_the_median_of_the_rounds_ratios() {
        let results = example();
        let rows = results.rows(|round| &round.boards);
        assert_eq!(rows.len(), SIZES.len());
        assert_eq!(rows[3].any().size, 8_192);
        let figure = rows[3].figure(|board| board.walk / board.read_all.ours);
        assert_eq!(
            (figure.median(), figure.range()),
            (3_000.0, Some((1_500.0, 6_000.0)))
        );
    }
}
