//! The plot of cost against size, as SVG.

use std::fmt::Write as _;

use crate::{
    boards::BoardTimes,
    cases::SIZES,
    number::{time, whole},
    results::Results,
    scores::ScoreTimes,
};

const WIDTH: f64 = 980.0;
const HEIGHT: f64 = 580.0;

// The area of the lines; the labels stand to its right.
const LEFT: f64 = 86.0;
const RIGHT: f64 = 640.0;
const TOP: f64 = 64.0;
const BOTTOM: f64 = 510.0;

/// Between the base lines of two labels.
const LABEL_GAP: f64 = 19.0;

const TITLE: &str = "Time of one call against the objects of the map, both axes logarithmic";
const SUBTITLE: &str = "Solid: ours and the Rust's. Dashed: plain Rust's. Reads pass counts of objects all over the map.";

const OURS: &str = "#1a5fa8";
const PLAIN: &str = "#b8560f";
const RUST: &str = "#3a3a3a";

#[derive(Clone, Copy)]
enum Marker {
    Square,
    Triangle,
    Down,
    Circle,
    Diamond,
}

struct Line {
    label: &'static str,
    color: &'static str,
    is_dashed: bool,
    marker: Marker,
    /// Nanoseconds at each size.
    times: Vec<f64>,
}

/// The range of the vertical axis, as logarithms.
struct Scale {
    low: f64,
    high: f64,
}

pub fn plot(results: &Results) -> String {
    draw(&lines(results))
}

fn lines(results: &Results) -> Vec<Line> {
    let boards = results.rows(|round| &round.boards);
    let scores = results.rows(|round| &round.scores);
    let line = |label, color, marker, times: Vec<f64>| Line {
        label,
        color,
        is_dashed: color == PLAIN,
        marker,
        times,
    };
    let board = |label, color, marker, value: fn(&BoardTimes) -> f64| {
        let times = boards.iter().map(|row| row.median(value));
        line(label, color, marker, times.collect())
    };
    let score = |label, color, value: fn(&ScoreTimes) -> f64| {
        let times = scores.iter().map(|row| row.median(value));
        line(label, color, Marker::Diamond, times.collect())
    };
    vec![
        board("our build", OURS, Marker::Square, |row| row.build.ours),
        board("plain Rust's build", PLAIN, Marker::Square, |row| {
            row.build.plain
        }),
        board("the Rust's walk, edited map", RUST, Marker::Down, |row| {
            row.walk
        }),
        score("the Rust's walk, file's map", RUST, |row| row.rust),
        score("our score of a file's play", OURS, |row| row.ours),
        board("our edit", OURS, Marker::Triangle, |row| row.edit.ours),
        board("plain Rust's edit", PLAIN, Marker::Triangle, |row| {
            row.edit.plain
        }),
        board("our read", OURS, Marker::Circle, |row| row.read_spread.ours),
        board("plain Rust's read", PLAIN, Marker::Circle, |row| {
            row.read_spread.plain
        }),
    ]
}

fn draw(lines: &[Line]) -> String {
    let scale = Scale::of(lines);
    let mut svg = format!(
        "<svg xmlns=\"http://www.w3.org/2000/svg\" viewBox=\"0 0 {WIDTH} {HEIGHT}\" width=\"{WIDTH}\" height=\"{HEIGHT}\" \
         font-family=\"DejaVu Sans, Verdana, sans-serif\" font-size=\"13\">\n\
         <rect width=\"{WIDTH}\" height=\"{HEIGHT}\" fill=\"#ffffff\"/>\n"
    );
    for (y, words) in [(24.0, TITLE), (44.0, SUBTITLE)] {
        svg += &text(LEFT, y, "start", "#111111", words);
    }
    svg += &axes(&scale);
    for line in lines {
        svg += &drawn(line, &scale);
    }
    svg += &labels(lines, &scale);
    svg + "</svg>\n"
}

impl Scale {
    /// Room above and below all lines.
    fn of(lines: &[Line]) -> Self {
        let logs = lines
            .iter()
            .flat_map(|line| &line.times)
            .map(|time| time.log10());
        let (low, high) = logs.fold((f64::MAX, f64::MIN), |(low, high), log| {
            (low.min(log), high.max(log))
        });
        Self {
            low: low - 0.2,
            high: high + 0.2,
        }
    }

    fn y(&self, time: f64) -> f64 {
        BOTTOM - (time.log10() - self.low) / (self.high - self.low) * (BOTTOM - TOP)
    }

    /// The powers of ten in the range.
    fn decades(&self) -> impl Iterator<Item = f64> {
        (self.low.ceil() as i32..=self.high.floor() as i32).map(|log| 10_f64.powi(log))
    }
}

/// The sizes span the width but for a margin on each side.
fn x(size: usize) -> f64 {
    let log = |size: usize| (size as f64).ln();
    let part = (log(size) - log(SIZES[0])) / (log(SIZES[SIZES.len() - 1]) - log(SIZES[0]));
    LEFT + 24.0 + part * (RIGHT - LEFT - 48.0)
}

fn axes(scale: &Scale) -> String {
    let mut svg = String::new();
    for decade in scale.decades() {
        let y = scale.y(decade);
        svg += &rule(LEFT, y, RIGHT, y, "#dcdcdc");
        svg += &text(
            LEFT - 10.0,
            y + 4.5,
            "end",
            "#333333",
            &power_of_ten(decade),
        );
    }
    for size in SIZES {
        let x = x(size);
        svg += &rule(x, TOP, x, BOTTOM, "#ececec");
        svg += &text(x, BOTTOM + 21.0, "middle", "#333333", &whole(size as u64));
    }
    svg += &rule(LEFT, BOTTOM, RIGHT, BOTTOM, "#777777");
    svg += &rule(LEFT, TOP, LEFT, BOTTOM, "#777777");
    svg += &text(
        (LEFT + RIGHT) / 2.0,
        BOTTOM + 48.0,
        "middle",
        "#333333",
        "objects",
    );
    svg
}

/// A time of one digit and zeros.
fn power_of_ten(nanoseconds: f64) -> String {
    let (unit, name) = match nanoseconds {
        n if n < 1e3 => (1.0, "ns"),
        n if n < 1e6 => (1e3, "µs"),
        _ => (1e6, "ms"),
    };
    format!("{:.0} {name}", nanoseconds / unit)
}

fn drawn(line: &Line, scale: &Scale) -> String {
    let points: Vec<(f64, f64)> = points(line, scale).collect();
    let list: Vec<String> = points
        .iter()
        .map(|(x, y)| format!("{x:.1},{y:.1}"))
        .collect();
    let (list, color) = (list.join(" "), line.color);
    let dashes = if line.is_dashed {
        " stroke-dasharray=\"7 4\""
    } else {
        ""
    };
    let mut svg = format!(
        "<polyline points=\"{list}\" fill=\"none\" stroke=\"{color}\" stroke-width=\"2\"{dashes}/>\n"
    );
    for (x, y) in points {
        svg += &mark(line, x, y);
    }
    svg
}

fn points(line: &Line, scale: &Scale) -> impl Iterator<Item = (f64, f64)> {
    SIZES
        .into_iter()
        .zip(&line.times)
        .map(|(size, &time)| (x(size), scale.y(time)))
}

/// Plain Rust's marks are hollow.
fn mark(line: &Line, x: f64, y: f64) -> String {
    let color = line.color;
    let fill = if line.is_dashed { "#ffffff" } else { color };
    let look = format!("fill=\"{fill}\" stroke=\"{color}\" stroke-width=\"1.5\"");
    let corners: &[(f64, f64)] = match line.marker {
        Marker::Circle => return format!("<circle cx=\"{x:.1}\" cy=\"{y:.1}\" r=\"4\" {look}/>\n"),
        Marker::Square => &[(-3.5, -3.5), (3.5, -3.5), (3.5, 3.5), (-3.5, 3.5)],
        Marker::Triangle => &[(0.0, -5.0), (4.5, 3.5), (-4.5, 3.5)],
        Marker::Down => &[(0.0, 5.0), (4.5, -3.5), (-4.5, -3.5)],
        Marker::Diamond => &[(0.0, -5.0), (5.0, 0.0), (0.0, 5.0), (-5.0, 0.0)],
    };
    let corner = |(across, down)| format!("{:.1},{:.1}", x + across, y + down);
    let corners: Vec<String> = corners.iter().copied().map(corner).collect();
    format!("<polygon points=\"{}\" {look}/>\n", corners.join(" "))
}

/// A label for each line beside its end, with its mark and its time there.
fn labels(lines: &[Line], scale: &Scale) -> String {
    let ends: Vec<f64> = lines
        .iter()
        .filter_map(|line| points(line, scale).last())
        .map(|(_, y)| y)
        .collect();
    let mut svg = String::new();
    for ((line, &end), y) in lines.iter().zip(&ends).zip(apart(&ends)) {
        let last = line.times[line.times.len() - 1];
        svg += &rule(
            x(SIZES[SIZES.len() - 1]) + 7.0,
            end,
            RIGHT + 14.0,
            y,
            "#bbbbbb",
        );
        svg += &mark(line, RIGHT + 22.0, y);
        let label = format!("{}, {}", line.label, time(last));
        svg += &text(RIGHT + 32.0, y + 4.5, "start", line.color, &label);
    }
    svg
}

/// Moves heights apart until no two are closer than labels may be; their order stays.
fn apart(heights: &[f64]) -> Vec<f64> {
    let mut order: Vec<usize> = (0..heights.len()).collect();
    order.sort_by(|&a, &b| heights[a].total_cmp(&heights[b]));
    let mut moved = heights.to_vec();
    // Each round halves what is missing between two neighbours; a few labels need far fewer rounds.
    for _ in 0..1_000 {
        for pair in order.windows(2) {
            let missing = LABEL_GAP - (moved[pair[1]] - moved[pair[0]]);
            if missing > 0.0 {
                moved[pair[0]] -= missing / 2.0;
                moved[pair[1]] += missing / 2.0;
            }
        }
    }
    // The lowest label stands above the foot of the plot.
    let lowest = moved.iter().copied().fold(f64::MIN, f64::max);
    let above = (lowest - (BOTTOM + 10.0)).max(0.0);
    moved.into_iter().map(|height| height - above).collect()
}

fn rule(x1: f64, y1: f64, x2: f64, y2: f64, color: &str) -> String {
    format!(
        "<line x1=\"{x1:.1}\" y1=\"{y1:.1}\" x2=\"{x2:.1}\" y2=\"{y2:.1}\" stroke=\"{color}\"/>\n"
    )
}

fn text(x: f64, y: f64, anchor: &str, color: &str, words: &str) -> String {
    let mut escaped = String::new();
    for letter in words.chars() {
        match letter {
            '&' => escaped += "&amp;",
            '<' => escaped += "&lt;",
            letter => escaped.push(letter),
        }
    }
    let mut svg = String::new();
    writeln!(
        svg,
        "<text x=\"{x:.1}\" y=\"{y:.1}\" text-anchor=\"{anchor}\" fill=\"{color}\">{escaped}</text>"
    )
    .expect("a string takes all text");
    svg
}

#[cfg(test)]
mod tests;
