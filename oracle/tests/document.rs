//! The runs, edges and traps of document 01. Run 5 is of the board and has no Rust; the edge of
//! combo 46,341 went with document 02.

mod common;

use common::{circle, list, map, play, slider, spinner, ticks, with_play};
use oracle::{
    command::worked_example,
    encode::encode,
    listing::listing,
    map::{MapFile, Object},
    reader::{PROGRAM_LIMIT, read_library, read_program},
    spinner::{half_spins_possible, half_spins_required},
    values::{Attributes, Original},
};

fn attributes(map: &MapFile) -> Attributes {
    Original::new(map).attributes(map.objects.len())
}

fn run_4(setting: f32) -> MapFile {
    map(
        setting,
        vec![circle(0.0), slider(5_000.0, "trte"), circle(10_000.0)],
    )
}

#[test]
fn the_worked_example_gives_its_two_lines() {
    let expected = "\
map 3 2 1010 240 0000000000000000 0 7 4042555555555555
play 0 3ff0000000000000 0000000000000000 0000000000000000 0000000000000000
";
    assert_eq!(listing(&read_program(&worked_example())), expected);
}

#[test]
fn runs_1_to_3_have_no_combo_points() {
    assert_eq!(
        list(&map(5.0, vec![])),
        "map 0 4 0 0 0000000000000000 0 0 nan\n"
    );
    let one = attributes(&map(5.0, vec![circle(0.0)]));
    assert_eq!(
        (one.max_combo, one.accuracy_score, one.combo_score),
        (1, 300, 0)
    );
    let two = attributes(&map(5.0, vec![circle(0.0), circle(1.0)]));
    assert_eq!(
        (two.max_combo, two.accuracy_score, two.combo_score),
        (2, 600, 0)
    );
}

#[test]
fn run_4_scales_with_the_multiplier() {
    for setting in [0.0, 2.0, 5.0, 9.5, 12.0] {
        let a = attributes(&run_4(setting));
        assert_eq!((a.accuracy_score, a.max_combo), (1010, 7));
        assert_eq!(a.combo_score, 120 * i64::from(a.multiplier));
    }
}

#[test]
fn runs_6_to_8_give_the_spinners_points() {
    let points = |duration: f64| {
        let a = attributes(&map(5.0, vec![spinner(0.0, duration)]));
        (a.legacy_bonus, a.standardised_bonus, a.nested_per_object)
    };
    assert_eq!(points(0.0), (0, 0, 0.0));
    assert_eq!(
        attributes(&map(5.0, vec![spinner(0.0, 0.0)]))
            .bonus_ratio
            .to_bits(),
        0
    );
    assert_eq!(
        (half_spins_possible(1000.0), half_spins_required(1000.0) + 3),
        (15, 6)
    );
    assert_eq!(points(1000.0), (4700, 230, 1700.0));
    assert_eq!(points(1400.0), (8800, 460, 3100.0));
}

#[test]
fn runs_9_and_10_give_their_multipliers() {
    let starts = |starts: &[f64]| starts.iter().copied().map(circle).collect::<Vec<Object>>();
    assert_eq!(
        attributes(&map(5.0, starts(&[0.0, 4_000.0, 10_000.0]))).multiplier,
        2
    );
    // A drain of -0.5 seconds rounded to -1 would give 2.
    assert_eq!(attributes(&map(5.0, starts(&[500.0, 0.0]))).multiplier, 4);
}

#[test]
fn run_11_keeps_a_number_through_max() {
    let objects = vec![circle(0.0), circle(5_000.0), circle(10_000.0)];
    let run = with_play(map(0.0, objects), play(3, 1));
    let a = attributes(&run);
    assert_eq!(a.multiplier, 0);
    assert_eq!(a.miss_steps(&run.plays[0]).relevant_combo_per_object, 3.0);
}

#[test]
fn a_thousand_nested_items_pass_and_one_more_does_not() {
    assert!(list(&map(5.0, vec![ticks(1_000)])).starts_with("map 1 "));
    assert_eq!(list(&map(5.0, vec![ticks(1_001)])), "refused 6 at 14\n");
}

#[test]
fn the_program_alone_limits_its_input() {
    let mut bytes = encode(&map(5.0, vec![circle(0.0); 6_552]));
    assert_eq!(bytes.len(), PROGRAM_LIMIT - 2);
    bytes.extend(b"CI");
    assert_eq!(listing(&read_program(&bytes)), "refused 2 at 65534\n");
    bytes.extend([0; 8]);
    assert_eq!(listing(&read_program(&bytes)), "refused 1 at 0\n");
    assert!(listing(&read_library(&bytes)).starts_with("map 6553 "));
}
