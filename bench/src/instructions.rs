//! Counts instructions by callgrind, which no load of the machine changes. The program runs itself under it.

use std::{env, hint::black_box, process::Command};

use oracle::{
    encode::encode,
    map::Play,
    values::{Estimates, Original},
};

use popejoanplum::sys;

use crate::{
    cases::{Broken, Case, Edit, HEAT_PLAYS, VARIED},
    lent::Lent,
    plain,
    proved::{self, GOOD},
};

/// Instructions of one call, on average.
#[derive(Clone, Copy, Debug)]
pub struct Counts {
    pub size: usize,
    pub read: f64,
    pub plain_read: f64,
    pub edit: f64,
    pub plain_edit: f64,
    pub walk: f64,
    /// Of a play with slider breaks, without factors and with them.
    pub alone: f64,
    pub with_factors: f64,
    /// Of the file with its play that passes all objects.
    pub score_map: f64,
    /// Of one play that passes all objects, of a heat of such plays, and of one with spread passed counts.
    pub score_play: f64,
    pub heat: f64,
    pub spread_heat: f64,
}

/// What is counted: its name as a subcommand, the function in which callgrind counts, and how many calls are made.
struct Counted {
    name: &'static str,
    function: &'static str,
    calls: usize,
}

const READ: Counted = Counted::new("read", "pjp_read", VARIED);
const PLAIN_READ: Counted = Counted::new("plain-read", "bench_plain_read", VARIED);
const EDIT: Counted = Counted::new("edit", "pjp_edit", VARIED);
const PLAIN_EDIT: Counted = Counted::new("plain-edit", "bench_plain_edit", VARIED);
const WALK: Counted = Counted::new("walk", "bench_walk", 4);
const ALONE: Counted = Counted::new("read-alone", "pjp_read", VARIED);
const WITH_FACTORS: Counted = Counted::new("read-breaks", "pjp_read_breaks", VARIED);
const SCORE_MAP: Counted = Counted::new("score-map", "pjp_score_map", 4);
const SCORE_PLAY: Counted = Counted::new("score-play", "pjp_score_play", 4);
const HEAT: Counted = Counted::new("heat", "pjp_heat", 1);
const SPREAD_HEAT: Counted = Counted::new("heat-spread", "pjp_heat", 1);

impl Counted {
    const fn new(name: &'static str, function: &'static str, calls: usize) -> Self {
        Self {
            name,
            function,
            calls,
        }
    }

    /// Instructions of one call at a size, or why there is no count.
    fn count(&self, size: usize) -> Result<f64, String> {
        let program = env::current_exe().map_err(|error| format!("no program to run: {error}"))?;
        let output = Command::new("valgrind")
            .args(["--tool=callgrind", "--callgrind-out-file=/dev/null"])
            .arg(format!("--toggle-collect={}", self.function))
            .arg(program)
            .args(["count", self.name, &size.to_string()])
            .output()
            .map_err(|error| format!("valgrind does not run: {error}"))?;
        let said = String::from_utf8_lossy(&output.stderr);
        match collected(&said) {
            Some(count) if output.status.success() && count > 0 => {
                Ok(count as f64 / self.calls as f64)
            }
            _ => Err(format!("valgrind counted nothing: {said}")),
        }
    }
}

/// The count in callgrind's report.
fn collected(report: &str) -> Option<u64> {
    let line = report.lines().find(|line| line.contains("Collected :"))?;
    line.rsplit(' ').next()?.parse().ok()
}

pub fn measure(size: usize) -> Result<Counts, String> {
    Ok(Counts {
        size,
        read: READ.count(size)?,
        plain_read: PLAIN_READ.count(size)?,
        edit: EDIT.count(size)?,
        plain_edit: PLAIN_EDIT.count(size)?,
        walk: WALK.count(size)?,
        alone: ALONE.count(size)?,
        with_factors: WITH_FACTORS.count(size)?,
        score_map: SCORE_MAP.count(size)?,
        score_play: SCORE_PLAY.count(size)?,
        heat: HEAT.count(size)?,
        spread_heat: SPREAD_HEAT.count(size)?,
    })
}

/// The subcommand `count NAME SIZE`: makes the calls, each edit and each of the spread plays once. A call that is refused
/// ends it, since its instructions are not those that are asked for.
pub fn run(name: &str, size: usize) -> Result<(), String> {
    let case = &Case::new(size);
    let board = &mut Lent::new(size);
    let settings = proved::settings(&case.map.settings);
    let file = &encode(&case.edited);
    let mut good = board.build(file) == GOOD;
    let (mut plays, mut edits) = (case.spread.iter(), case.edits.iter());
    let is = |counted: Counted| name == counted.name;
    if is(READ) {
        good &= plays.all(|play| board.read(settings, proved::play(play)).status == 0);
    } else if is(ALONE) {
        let alone = |given: &Broken| board.read(settings, proved::play(&given.play)).status;
        good &= case.broken_spread.iter().all(|given| alone(given) == 0);
    } else if is(WITH_FACTORS) {
        good &= case.broken_spread.iter().all(|given| {
            let (play, factors) = (proved::play(&given.play), proved::factors(given.factors));
            board.read_breaks(settings, play, factors).status == 0
        });
    } else if is(PLAIN_READ) {
        good &= plays.all(|play| one_plain_read(case, board, play).is_ok());
    } else if is(EDIT) {
        good &= edits.all(|edit| board.edit(edit) == GOOD);
    } else if is(PLAIN_EDIT) {
        good &= edits.all(|edit| one_plain_edit(board, edit).is_ok());
    } else if is(WALK) {
        let original = Original::new(&case.edited);
        for play in case.all_passed.iter().take(WALK.calls) {
            black_box(&one_walk(&original, play));
        }
    } else if is(SCORE_MAP) {
        good &= (0..SCORE_MAP.calls).all(|_| proved::score_map(&case.file).status == 0);
    } else if is(SCORE_PLAY) {
        let mut plays = case.all_passed.iter().take(SCORE_PLAY.calls);
        good &= plays.all(|play| proved::score_play(file, proved::play(play)).status == 0);
    } else if is(HEAT) {
        good &= one_heat(file, &case.all_passed);
    } else if is(SPREAD_HEAT) {
        good &= one_heat(file, &case.spread);
    } else {
        return Err(format!("nothing is counted as {name}"));
    }
    good.then_some(()).ok_or("a call was refused".to_owned())
}

/// A heat of the first plays, and whether it and each of them is good.
fn one_heat(file: &[u8], plays: &[Play]) -> bool {
    let plays: Vec<sys::Play> = plays.iter().take(HEAT_PLAYS).map(proved::play).collect();
    let mut outcomes = [sys::PlayAnswer::default(); HEAT_PLAYS];
    let status = proved::heat(file, &plays, &mut outcomes);
    status == GOOD && outcomes.iter().all(|outcome| outcome.status == 0)
}

// Functions with names that callgrind can be told. What they give is taken whole, so that none of it is left out.

#[unsafe(export_name = "bench_plain_read")]
#[inline(never)]
fn one_plain_read(case: &Case, board: &Lent, play: &Play) -> Result<plain::Score, u8> {
    black_box(board.plain_read(&case.map.settings, play))
}

#[unsafe(export_name = "bench_plain_edit")]
#[inline(never)]
fn one_plain_edit(board: &mut Lent, edit: &Edit) -> Result<(), u8> {
    board.plain_edit(edit)
}

#[unsafe(export_name = "bench_walk")]
#[inline(never)]
fn one_walk(original: &Original, play: &Play) -> Estimates {
    original.widened_estimates(play)
}

#[cfg(test)]
mod tests {
    use super::*;

    #[test]
    fn the_count_is_found_in_a_report() {
        let report = "==7== Events    : Ir\n==7== Collected : 1234567\n==7==\n";
        assert_eq!(collected(report), Some(1_234_567));
        assert_eq!(collected("==7== Events    : Ir\n"), None);
    }

    #[test]
    fn an_unknown_name_is_refused() {
        assert!(run("nothing", 10).is_err());
        for counted in [
            READ,
            PLAIN_READ,
            EDIT,
            PLAIN_EDIT,
            WALK,
            ALONE,
            WITH_FACTORS,
            SCORE_MAP,
            SCORE_PLAY,
            HEAT,
            SPREAD_HEAT,
        ] {
            assert_eq!(run(counted.name, 10), Ok(()));
        }
    }
}
