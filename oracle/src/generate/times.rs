//! Settings, starts and breaks of a generated map.

use super::random::Random;
use crate::{
    map::{Break, Settings},
    reader::{MAX_BREAKS, MAX_SETTING, MAX_TIME},
};

/// Settings with starts, since the multiplier's ties depend on both.
pub fn settings_and_starts(r: &mut Random, count: usize) -> (Settings, Vec<f64>) {
    match r.below(20) {
        // 3 and the ratio's 16 at drain 0 make 19 of 38, times 5: exactly 2.5.
        0 => (
            settings_of(r.pick(&[[1.0, 1.0, 1.0], [3.0, 0.0, 0.0], [0.5, 1.5, 1.0]])),
            {
                let start = time(r);
                vec![start; count]
            },
        ),
        // 15 and the ratio 4 of two seconds for each object: 2.5 again.
        1 if count > 1 && count < 3_000 => {
            let drain = 2_000.0 * count as f64 + r.pick(&[0.0, 0.0, 0.5, -1.0, 999.0]);
            let mut starts = vec![0.0; count];
            starts[count - 1] = drain;
            (settings_of([5.0, 5.0, 5.0]), starts)
        }
        // A long drain and no settings: multiplier 0.
        2 | 3 => (settings_of([0.0, 0.0, -0.0]), spread(r, count, 5_000)),
        _ => {
            let settings = settings_of([setting(r), setting(r), setting(r)]);
            (settings, starts(r, count))
        }
    }
}

fn settings_of([hp, od, cs]: [f32; 3]) -> Settings {
    Settings { hp, od, cs }
}

fn setting(r: &mut Random) -> f32 {
    match r.below(5) {
        0 => r.pick(&[
            0.0,
            -0.0,
            MAX_SETTING,
            MAX_SETTING.next_down(),
            f32::MIN_POSITIVE,
            1e-45,
        ]),
        1 => r.between(0, 12) as f32,
        2 => r.between(0, 120) as f32 / 10.0,
        3 => r.between(0, 48) as f32 / 4.0,
        _ => (r.unit() * 12.0) as f32,
    }
}

fn starts(r: &mut Random, count: usize) -> Vec<f64> {
    let widest = r.pick(&[3, 40, 200, 500, 1_000]);
    match r.below(8) {
        0 => {
            let start = time(r);
            vec![start; count]
        }
        1 | 2 => spread(r, count, widest),
        3 => {
            let mut starts = spread(r, count, widest);
            starts.reverse();
            starts
        }
        4 => spread(r, count, widest)
            .into_iter()
            .map(|start| start + 0.5)
            .map(within)
            .collect(),
        5 => {
            let fraction = r.unit();
            spread(r, count, widest)
                .into_iter()
                .map(|start| within(start + fraction))
                .collect()
        }
        6 => (0..count).map(|_| time(r)).collect(),
        _ => (0..count)
            .map(|_| r.pick(&[0.0, -0.0, 0.5, -0.5, 1.5, 500.0, 1_000.0]))
            .collect(),
    }
}

/// Whole starts that rise by up to `widest` each.
fn spread(r: &mut Random, count: usize, widest: u64) -> Vec<f64> {
    let mut start = r.pick(&[0.0, -0.0, -1_500.0, 300.0, -MAX_TIME, 1_000_000.0]);
    (0..count)
        .map(|_| {
            let this = start;
            start = within(start + r.between(0, widest) as f64);
            this
        })
        .collect()
}

fn within(time: f64) -> f64 {
    time.clamp(-MAX_TIME, MAX_TIME)
}

/// Any time, often at a limit, a tie or next to one.
pub fn time(r: &mut Random) -> f64 {
    match r.below(5) {
        0 => r.pick(&[
            MAX_TIME,
            -MAX_TIME,
            MAX_TIME.next_down(),
            -MAX_TIME.next_down(),
            0.0,
            -0.0,
            5e-324,
        ]),
        1 => (r.unit() * 2.0 - 1.0) * MAX_TIME,
        2 => {
            let tie = r.between(0, 20_000) as f64 - 10_000.5;
            r.pick(&[tie.next_down(), tie, tie.next_up()])
        }
        _ => r.between(0, 60_000) as f64 - 10_000.0,
    }
}

pub fn breaks(r: &mut Random, starts: &[f64]) -> Vec<Break> {
    let last = starts.last().copied().unwrap_or(0.0);
    if r.below(200) == 0 {
        // The longest sums, either way.
        let ends = r.pick(&[[-MAX_TIME, last.next_down()], [MAX_TIME, -MAX_TIME]]);
        let [start, end] = ends.map(within);
        return vec![Break { start, end }; MAX_BREAKS];
    }
    let counts = [
        (60, (0, 0)),
        (30, (1, 4)),
        (8, (5, 20)),
        (1, (21, 127)),
        (1, (128, 128)),
    ];
    let (low, high) = r.weighted(&counts);
    (0..r.between(low, high))
        .map(|_| break_period(r, starts, last))
        .collect()
}

/// A break that ends before, at or after a start, reversed at times.
fn break_period(r: &mut Random, starts: &[f64], last: f64) -> Break {
    let by = if starts.is_empty() || r.percent(70) {
        last
    } else {
        r.pick(starts)
    };
    let end = match r.below(12) {
        0 => by.next_down(),
        1 => by,
        2 => by.next_up(),
        3 => by + r.between(1, 3_000) as f64,
        4 => time(r),
        5 => by - 0.5,
        6 => by - r.unit() * 10_000.0,
        _ => by - r.between(1, 30_000) as f64,
    };
    let length = r.between(0, 8_000) as f64 / 2.0;
    let start = match r.below(10) {
        0 => end + length,
        1 => time(r),
        _ => end - length,
    };
    Break {
        start: within(start),
        end: within(end),
    }
}
