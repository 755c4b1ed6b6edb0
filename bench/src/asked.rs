//! What was asked of the library beside what a series measured.

use std::iter::repeat;

use crate::{
    boards::{BoardTimes, FactorTimes, Pair},
    cases::{HEAT_PLAYS, LONG_SLIDERS, WHOLE_HEATS},
    figure::Figure,
    heats::HeatTimes,
    instructions::Counts,
    number::{judged, whole},
    own_plays::OwnTimes,
    reading::ReadingTimes,
    results::{Results, Round, Row},
    scores::ScoreTimes,
    table::markdown,
};
use Asked::{AtLeast, AtMost};

/// Of the maps whose boards' calls are compared.
const SIZE: usize = 8_192;

/// What is compared with what, and how.
struct Aim {
    what: String,
    objects: usize,
    asked: Asked,
    /// None where instructions were not counted, or the listing program is not there.
    measured: Option<Figure>,
}

#[derive(Clone, Copy)]
enum Asked {
    AtLeast(f64, Unit),
    AtMost(f64, Unit),
}

#[derive(Clone, Copy)]
enum Unit {
    /// How often one time fits into another.
    Faster,
    /// One time as a part of another.
    OfTime,
    OfInstructions,
    Instructions,
    Milliseconds,
    GigabytesPerSecond,
}

impl Asked {
    fn is_met(self, measured: f64) -> bool {
        match self {
            AtLeast(bar, _) => measured >= bar,
            AtMost(bar, _) => measured <= bar,
        }
    }

    fn unit(self) -> Unit {
        match self {
            AtLeast(_, unit) | AtMost(_, unit) => unit,
        }
    }

    fn bar(self) -> f64 {
        match self {
            AtLeast(bar, _) | AtMost(bar, _) => bar,
        }
    }

    fn text(self) -> String {
        let word = match self {
            AtLeast(..) => "least",
            AtMost(..) => "most",
        };
        let bar = match self.bar() {
            bar if bar < 1_000.0 => bar.to_string(),
            bar => whole(bar as u64),
        };
        let unit = match self.unit() {
            Unit::Faster => "× faster",
            Unit::OfTime => "× the time",
            Unit::OfInstructions => "× the instructions",
            unit => unit.text(),
        };
        format!("at {word} {bar} {unit}")
    }
}

impl Unit {
    fn text(self) -> &'static str {
        match self {
            Self::Faster | Self::OfTime | Self::OfInstructions => "×",
            Self::Instructions => "instructions",
            Self::Milliseconds => "ms",
            Self::GigabytesPerSecond => "GB/s",
        }
    }
}

impl Aim {
    fn row(&self) -> Vec<String> {
        let (measured, met) = match &self.measured {
            Some(figure) => (
                measured(figure, self.asked),
                figure.verdict(|round| self.asked.is_met(round)),
            ),
            None => ("not measured".to_owned(), String::new()),
        };
        vec![
            self.what.clone(),
            whole(self.objects as u64),
            self.asked.text(),
            measured,
            met,
        ]
    }
}

/// The median with the range.
fn measured(figure: &Figure, asked: Asked) -> String {
    let shown = |value| judged(value, |shown| asked.is_met(shown));
    let median = format!("{} {}", shown(figure.median()), asked.unit().text());
    match figure.range() {
        Some((least, most)) => format!("{median} ({} to {})", shown(least), shown(most)),
        None => median,
    }
}

/// The table of all aims. How often a call fits into the Rust's walk differs from one processor to another, so that its
/// name stands there.
pub fn asked(results: &Results, processor: &str) -> String {
    let mut aims = against_walk(results, processor);
    aims.extend(with_factors(results));
    aims.extend(against_plain(results));
    aims.extend(scores(results));
    aims.extend(heats(results));
    aims.extend(files(results));
    aims.extend(own_plays(results));
    let rows = aims.iter().map(Aim::row).collect();
    markdown(1, &["", "objects", "asked", "measured", "met"], rows)
}

fn board(round: &Round, size: usize) -> &BoardTimes {
    let board = round.boards.iter().find(|row| row.size == size);
    board.expect("a board of that size is measured")
}

/// The Rust's walk of the map as its file has it.
fn walk_of_file(round: &Round, size: usize) -> f64 {
    let score = round.scores.iter().find(|row| row.size == size);
    score.expect("a file of that size is measured").rust
}

/// A count at a size, if it was taken.
fn counted(results: &Results, size: usize, value: fn(&Counts) -> f64) -> Option<Figure> {
    let counts = results.counts.as_ref().ok()?;
    let counts = counts.iter().find(|counts| counts.size == size)?;
    Some(Figure::from_iter([value(counts)]))
}

/// Reads and edits beside the Rust's walk of all objects. How long that takes depends on how regular the objects are.
fn against_walk(results: &Results, processor: &str) -> Vec<Aim> {
    type Walk = (&'static str, fn(&Round, usize) -> f64);
    type Call = (&'static str, f64, fn(&BoardTimes) -> Pair);
    let walks: [Walk; 2] = [
        ("of the map behind the edits", |round, size| {
            board(round, size).walk
        }),
        ("of the map as the file has it", walk_of_file),
    ];
    let calls: [Call; 4] = [
        ("a read that passes all objects", 1_000.0, |row| {
            row.read_all
        }),
        (
            "a read with passed counts all over the map",
            1_000.0,
            |row| row.read_spread,
        ),
        ("a read that passes nearly all objects", 1_000.0, |row| {
            row.read_nearly
        }),
        ("an edit", 500.0, |row| row.edit),
    ];
    let aim = |(which, walk): Walk, (what, times, call): Call| Aim {
        what: format!("{what}, against the Rust's walk of all objects, {which}; on {processor}"),
        objects: SIZE,
        asked: AtLeast(times, Unit::Faster),
        measured: Some(results.figure(|round| walk(round, SIZE) / call(board(round, SIZE)).ours)),
    };
    let of_walk = |walk| calls.map(|call| aim(walk, call));
    walks.into_iter().flat_map(of_walk).collect()
}

fn with_factors(results: &Results) -> Vec<Aim> {
    type Reads = (&'static str, fn(&BoardTimes) -> FactorTimes);
    let reads: [Reads; 2] = [
        ("passes all objects", |row| row.factors_all),
        ("has passed counts all over the map", |row| {
            row.factors_spread
        }),
    ];
    let aim = |(which, reads): Reads| Aim {
        what: format!("a read with factors that {which}, against the same without factors"),
        objects: SIZE,
        asked: AtMost(1.3, Unit::OfTime),
        measured: Some(results.figure(|round| {
            let FactorTimes { alone, with } = reads(board(round, SIZE));
            with.ours / alone.ours
        })),
    };
    reads.map(aim).into()
}

fn against_plain(results: &Results) -> [Aim; 4] {
    let time = |call: fn(&BoardTimes) -> Pair| {
        Some(results.figure(|round| {
            let Pair { ours, plain } = call(board(round, SIZE));
            ours / plain
        }))
    };
    let instructions = |value| counted(results, SIZE, value);
    let aim = |what: &str, asked, measured| Aim {
        what: format!("{what}, against plain Rust's"),
        objects: SIZE,
        asked,
        measured,
    };
    [
        aim("a build", AtMost(1.0, Unit::OfTime), time(|row| row.build)),
        aim("an edit", AtMost(1.1, Unit::OfTime), time(|row| row.edit)),
        aim(
            "an edit",
            AtMost(1.0, Unit::OfInstructions),
            instructions(|row| row.edit / row.plain_edit),
        ),
        aim(
            "a read with passed counts all over the map",
            AtMost(1.0, Unit::OfInstructions),
            instructions(|row| row.read / row.plain_read),
        ),
    ]
}

/// The scores of a play from a file: at which sizes what part of the Rust's time is asked. Those of 0.34 stem from before
/// the half spins were walked; since then 0.5 are asked at these sizes.
fn scores(results: &Results) -> Vec<Aim> {
    let one = [(10, 1.7), (100, 0.55), (1_000, 0.5), (8_192, 0.5)];
    let in_turn = [
        (10, 0.9),
        (100, 0.4),
        (1_000, 0.34),
        (1_000, 0.5),
        (8_192, 0.34),
        (8_192, 0.5),
    ];
    let mut aims = of_scores(&results.rows(|round| &round.scores), &one);
    aims.extend(of_scores(&results.rows(|round| &round.different), &in_turn));
    aims
}

fn of_scores(rows: &[Row<ScoreTimes>], asked: &[(usize, f64)]) -> Vec<Aim> {
    let aim = |&(size, part): &(usize, f64)| {
        let row = rows.iter().find(|row| row.any().size == size);
        let row = row.expect("files of that size are measured");
        let files = match row.any().files {
            1 => "one file".to_owned(),
            files => format!("{} files in turn", whole(files as u64)),
        };
        Aim {
            what: format!(
                "the score of a play from a file, against the Rust on objects already read: {files}"
            ),
            objects: size,
            asked: AtMost(part, Unit::OfTime),
            measured: Some(row.figure(|times| times.ours / times.rust)),
        }
    };
    asked.iter().map(aim).collect()
}

/// All plays of a heat in the time of a few calls on one.
fn heats(results: &Results) -> Vec<Aim> {
    const OBJECTS: usize = 1_000;
    let is_asked =
        |row: &Row<HeatTimes>| row.any().name == WHOLE_HEATS && row.any().size == OBJECTS;
    let aim = |row: Row<HeatTimes>| Aim {
        what: format!(
            "`pjp_heat`, {HEAT_PLAYS} plays that passed all objects, against one call of `pjp_score_play`: {} files in turn",
            whole(row.any().files as u64)
        ),
        objects: OBJECTS,
        asked: AtMost(3.0, Unit::OfTime),
        measured: Some(row.figure(|times| times.heat / times.call)),
    };
    let rows = results.rows(|round| &round.heats);
    rows.into_iter().filter(is_asked).map(aim).collect()
}

/// The calls that go through a whole file.
fn files(results: &Results) -> Vec<Aim> {
    let count = |(size, most)| Aim {
        what: "`pjp_score_map`".to_owned(),
        objects: size,
        asked: AtMost(most, Unit::Instructions),
        measured: counted(results, size, |row| row.score_map),
    };
    let read_map = |size| Aim {
        what: "`pjp_read_map`, against `pjp_score_map`".to_owned(),
        objects: size,
        asked: AtMost(1.1, Unit::OfTime),
        measured: Some(results.figure(|round| {
            let times = board(round, size);
            times.read_map / times.score_map
        })),
    };
    let nested = |row: Row<ReadingTimes>| Aim {
        what: format!("`pjp_score_map`, {LONG_SLIDERS}"),
        objects: row.any().objects,
        asked: AtLeast(8.0, Unit::GigabytesPerSecond),
        measured: Some(row.figure(|times| times.speed(times.score_map))),
    };
    let readings = results.rows(|round| &round.readings);
    let is_nested = |row: &Row<ReadingTimes>| row.any().name == LONG_SLIDERS;
    let mut aims: Vec<Aim> = [(10, 2_400.0), (1_000, 69_500.0)].map(count).into();
    aims.extend([1_000, 8_192].map(read_map));
    aims.extend(readings.into_iter().filter(is_nested).map(nested));
    aims
}

/// The first two files, of circles and of sliders, have bars of their own for the first two calls. The others are of
/// spinners, on which all calls have the same bar.
fn own_plays(results: &Results) -> Vec<Aim> {
    type Call = (&'static str, fn(&OwnTimes) -> Option<f64>);
    const CALLS: [Call; 4] = [
        ("`pjp_score_map`", |times| Some(times.score_map)),
        ("`pjp_build`", |times| Some(times.build)),
        ("`pjp_score_play_at`", |times| Some(times.score_play_at)),
        ("the listing program", |times| times.list),
    ];
    let rows = results.rows(|round| &round.own_plays);
    let bars = [(0.5, 2), (50.0, 2)].into_iter().chain(repeat((300.0, 4)));
    let aim = |row: &Row<OwnTimes>, most, (name, value): Call| Aim {
        what: format!(
            "{name}, {} plays behind {}",
            whole(row.any().plays as u64),
            row.any().name
        ),
        objects: row.any().objects,
        asked: AtMost(most, Unit::Milliseconds),
        measured: row.figure_if(|times| Some(value(times)? / 1e6)),
    };
    let of_row = |(row, (most, calls))| {
        let calls = CALLS.into_iter().take(calls);
        calls.map(move |call| aim(row, most, call))
    };
    rows.iter().zip(bars).flat_map(of_row).collect()
}

#[cfg(test)]
mod tests {
    use super::*;

    #[test]
    fn an_aim_is_met_at_its_bound_and_not_beyond() {
        assert!(AtLeast(500.0, Unit::Faster).is_met(500.0));
        assert!(!AtLeast(500.0, Unit::Faster).is_met(499.9));
        assert!(AtMost(2.0, Unit::OfTime).is_met(2.0));
        assert!(!AtMost(2.0, Unit::OfTime).is_met(2.01));
    }

    #[test]
    fn each_aim_has_a_row_of_its_own_values() {
        let text = asked(&crate::results::example(), "a processor");
        let rows: Vec<&str> = text.lines().skip(2).collect();
        let ends = [
            "; on a processor | 8,192 | at least 1,000 × faster | 3,000 × (1,500 to 6,000) | yes, in all 3 |",
            "at least 1,000 × faster | 1,500 × (750 to 3,000) | yes, in 2 of 3 |",
            "at least 1,000 × faster | 900 × (450 to 1,800) | no, in 1 of 3 |",
            "at least 500 × faster | 1,406 × (703 to 2,813) | yes, in all 3 |",
            "; on a processor | 8,192 | at least 1,000 × faster | 1,333 × (667 to 2,667) | yes, in 2 of 3 |",
            "at least 1,000 × faster | 667 × (333 to 1,333) | no, in 1 of 3 |",
            "at least 1,000 × faster | 400 × (200 to 800) | no, in none |",
            "at least 500 × faster | 625 × (313 to 1,250) | yes, in 2 of 3 |",
            "at most 1.3 × the time | 1.50 × (1.50 to 1.50) | no, in none |",
            "at most 1.3 × the time | 1.25 × (1.25 to 1.25) | yes, in all 3 |",
            "at most 1 × the time | 1.11 × (0.556 to 2.22) | no, in 1 of 3 |",
            "at most 1.1 × the time | 1.11 × (0.556 to 2.22) | no, in 1 of 3 |",
            "at most 1 × the instructions | 1.50 × | no |",
            "at most 1 × the instructions | 1.00 × | yes |",
            ": one file | 10 | at most 1.7 × the time | 0.278 × (0.139 to 0.556) | yes, in all 3 |",
            ": one file | 100 | at most 0.55 × the time | 0.278 × (0.139 to 0.556) | yes, in 2 of 3 |",
            ": one file | 1,000 | at most 0.5 × the time | 0.278 × (0.139 to 0.556) | yes, in 2 of 3 |",
            ": one file | 8,192 | at most 0.5 × the time | 0.278 × (0.139 to 0.556) | yes, in 2 of 3 |",
            ": 33 files in turn | 10 | at most 0.9 × the time | 0.350 × (0.175 to 0.700) | yes, in all 3 |",
            "turn | 100 | at most 0.4 × the time | 0.350 × (0.175 to 0.700) | yes, in 2 of 3 |",
            "turn | 1,000 | at most 0.34 × the time | 0.350 × (0.175 to 0.700) | no, in 1 of 3 |",
            "turn | 1,000 | at most 0.5 × the time | 0.350 × (0.175 to 0.700) | yes, in 2 of 3 |",
            "turn | 8,192 | at most 0.34 × the time | 0.350 × (0.175 to 0.700) | no, in 1 of 3 |",
            "turn | 8,192 | at most 0.5 × the time | 0.350 × (0.175 to 0.700) | yes, in 2 of 3 |",
            ": 33 files in turn | 1,000 | at most 3 × the time | 2.00 × (1.00 to 4.00) | yes, in 2 of 3 |",
            "`pjp_score_map` | 10 | at most 2,400 instructions | 2,450 instructions | no |",
            "`pjp_score_map` | 1,000 | at most 69,500 instructions | 61,850 instructions | yes |",
            "| 1,000 | at most 1.1 × the time | 1.20 × (1.20 to 1.20) | no, in none |",
            "| 8,192 | at most 1.1 × the time | 1.06 × (1.06 to 1.06) | yes, in all 3 |",
            "items | 283 | at least 8 GB/s | 10.0 GB/s (5.00 to 20.0) | yes, in 2 of 3 |",
            "| 3,275 | at most 0.5 ms | 0.400 ms (0.200 to 0.800) | yes, in 2 of 3 |",
            "| 3,275 | at most 0.5 ms | 0.600 ms (0.300 to 1.20) | no, in 1 of 3 |",
            "| 8,192 | at most 50 ms | 30.0 ms (15.0 to 60.0) | yes, in 2 of 3 |",
            "| 8,192 | at most 50 ms | 20.0 ms (10.0 to 40.0) | yes, in all 3 |",
            "| 75 | at most 300 ms | 80.0 ms (40.0 to 160) | yes, in all 3 |",
            "| 75 | at most 300 ms | 120 ms (60.0 to 240) | yes, in all 3 |",
            "| 75 | at most 300 ms | 240 ms (120 to 480) | yes, in 2 of 3 |",
            "the listing program, 100 plays behind spinners | 75 | at most 300 ms | 360 ms (180 to 720) | no, in 1 of 3 |",
        ];
        assert_eq!(rows.len(), ends.len(), "{text}");
        for (row, end) in rows.iter().zip(ends) {
            assert!(row.ends_with(end), "{row}");
        }
    }

    #[test]
    fn what_was_not_measured_is_said() {
        let mut results = crate::results::example();
        results.counts = Err("valgrind does not run".to_owned());
        let text = asked(&results, "a processor");
        assert_eq!(text.matches(" | not measured |  |\n").count(), 4);
        results.rounds[1].own_plays[2].list = None;
        let text = asked(&results, "a processor");
        assert_eq!(text.matches(" | not measured |  |\n").count(), 5);
    }
}
