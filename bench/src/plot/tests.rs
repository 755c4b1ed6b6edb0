use super::*;
use crate::results::example as results;

fn line(label: &'static str, times: [f64; 4]) -> Line {
    Line {
        label,
        color: OURS,
        is_dashed: false,
        marker: Marker::Square,
        times: times.to_vec(),
    }
}

/// At most what a letter of the labels' size takes in the fonts that are named, on average.
const LETTER: f64 = 8.2;

#[test]
fn no_text_is_clipped() {
    let svg = plot(&results());
    assert!(is_well_formed(&svg), "{svg}");
    assert_eq!(svg.matches("<polyline").count(), 9);
    let mut labels = 0;
    for text in svg.split("<text x=\"").skip(1) {
        let (x, rest) = text.split_once('"').expect("a number in quotes");
        let words = rest.split(['>', '<']).nth(1).expect("words in the tag");
        if rest.contains("text-anchor=\"start\"") {
            let end = x.parse::<f64>().expect("a number") + LETTER * words.chars().count() as f64;
            assert!(end < WIDTH, "{words} ends at {end}");
            labels += 1;
        }
    }
    assert_eq!(labels, 11);
}

fn example() -> String {
    draw(&[
        line("a < b & c", [1_000.0, 5_600.0, 56_000.0, 500_000.0]),
        line("flat", [100.0, 160.0, 230.0, 320.0]),
        line("as flat", [100.0, 160.0, 230.0, 321.0]),
    ])
}

/// What stands between the quotes behind each such name.
fn values<'t>(svg: &'t str, name: &str) -> Vec<&'t str> {
    let name = format!(" {name}=\"");
    let after = svg.split(name.as_str()).skip(1);
    after.filter_map(|rest| rest.split('"').next()).collect()
}

/// Whether each tag is closed in its order and has whole attributes.
fn is_well_formed(svg: &str) -> bool {
    let mut open = Vec::new();
    for piece in svg.split('<').skip(1) {
        let Some((tag, text)) = piece.split_once('>') else {
            return false;
        };
        let is_escaped = text
            .split('&')
            .skip(1)
            .all(|rest| rest.starts_with("amp;") || rest.starts_with("lt;"));
        if tag.matches('"').count() % 2 == 1 || !is_escaped {
            return false;
        }
        let name = tag.trim_matches('/').split(' ').next();
        match (tag.starts_with('/'), tag.ends_with('/')) {
            (true, _) if open.pop() != Some(name) => return false,
            (false, false) => open.push(name),
            _ => {}
        }
    }
    open.is_empty() && svg.starts_with("<svg ")
}

#[test]
fn the_check_of_form_refuses() {
    assert!(is_well_formed(
        "<svg a=\"1\"><g/><text>a &lt; b</text></svg>\n"
    ));
    for bad in [
        "<svg a=\"1>",
        "<svg><g></svg>",
        "<svg><text>a & b</text></svg>",
        "<svg></svg",
        "<p></p>",
    ] {
        assert!(!is_well_formed(bad), "{bad}");
    }
}

#[test]
fn the_plot_is_well_formed() {
    let svg = example();
    assert!(is_well_formed(&svg), "{svg}");
    assert!(svg.contains(">a &lt; b &amp; c, 500 µs</text>"));
    assert_eq!(svg.matches("<polyline").count(), 3);
}

#[test]
fn all_is_inside_the_picture() {
    let svg = example();
    let numbers = |names: &[&str]| -> Vec<f64> {
        let all = names.iter().flat_map(|name| values(&svg, name));
        all.map(|value| value.parse().expect("a number")).collect()
    };
    let (across, down) = (
        numbers(&["x", "x1", "x2", "cx"]),
        numbers(&["y", "y1", "y2", "cy"]),
    );
    assert!(across.len() > 10 && down.len() > 10);
    assert!(across.iter().all(|x| (0.0..WIDTH).contains(x)));
    assert!(down.iter().all(|y| (0.0..HEIGHT).contains(y)));
    for list in values(&svg, "points") {
        for point in list.split(' ') {
            let (x, y) = point.split_once(',').expect("two numbers");
            let (x, y): (f64, f64) = (x.parse().expect("a number"), y.parse().expect("a number"));
            assert!(
                (0.0..WIDTH).contains(&x) && (TOP..=BOTTOM + 20.0).contains(&y),
                "{point}"
            );
        }
    }
}

#[test]
fn labels_stand_apart_in_their_order() {
    let heights = [500.0, 499.0, 300.0, 498.0, 501.0, 310.0];
    let moved = apart(&heights);
    let mut order: Vec<usize> = (0..heights.len()).collect();
    order.sort_by(|&a, &b| heights[a].total_cmp(&heights[b]));
    for pair in order.windows(2) {
        assert!(
            moved[pair[1]] - moved[pair[0]] > LABEL_GAP - 0.1,
            "{moved:?}"
        );
    }
    assert!(
        moved
            .iter()
            .all(|height| (TOP..=BOTTOM + 10.0).contains(height))
    );
}

#[test]
fn more_time_stands_higher() {
    let scale = Scale::of(&[line("", [100.0, 1_000.0, 10_000.0, 100_000.0])]);
    assert!(scale.y(100.0) > scale.y(1_000.0));
    assert!(scale.y(100_000.0) > TOP && scale.y(100.0) < BOTTOM);
    let decades: Vec<String> = scale.decades().map(power_of_ten).collect();
    assert_eq!(decades, ["100 ns", "1 µs", "10 µs", "100 µs"]);
}
