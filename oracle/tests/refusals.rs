//! Each refusal of the reader, its offset, and which one comes first.

mod common;

use common::{circle, map, play, refusal, slider, spinner, ticks, with_play};
use oracle::{
    encode::{self, encode},
    map::{Break, MapFile, Origin, Play},
};

fn header() -> Vec<u8> {
    encode(&map(5.0, vec![]))
}

/// A header and what follows it.
fn after_header(parts: &[&[u8]]) -> Option<(u8, usize)> {
    refusal(&[&header(), parts.concat().as_slice()].concat())
}

fn f64_bytes(value: f64) -> [u8; 8] {
    value.to_le_bytes()
}

const ZERO: [u8; 8] = [0; 8];
const NAN: [u8; 8] = f64::NAN.to_le_bytes();

#[test]
fn marks_come_first() {
    assert_eq!(refusal(b""), Some((3, 0)));
    assert_eq!(refusal(b"M"), Some((2, 0)));
    assert_eq!(refusal(b"CI"), Some((3, 0)));
    assert_eq!(refusal(b"MH"), Some((2, 0)));
    assert_eq!(refusal(&header()), None);
    assert_eq!(after_header(&[b"MH"]), Some((3, 14)));
    assert_eq!(after_header(&[b"X"]), Some((2, 14)));
    assert_eq!(after_header(&[b"ci"]), Some((3, 14)));
    assert_eq!(after_header(&[b"CI", &ZERO, b"BR"]), Some((3, 24)));
}

#[test]
fn a_cut_fixed_part_comes_before_its_fields() {
    let mut cut = b"MH".to_vec();
    cut.extend(f32::NAN.to_le_bytes());
    assert_eq!(refusal(&cut), Some((2, 0)));
    cut.extend([0; 8]);
    assert_eq!(refusal(&cut), Some((4, 0)));
    assert_eq!(after_header(&[b"SP", &NAN]), Some((2, 14)));
    assert_eq!(after_header(&[b"SP", &NAN, &ZERO]), Some((4, 14)));
}

#[test]
fn a_setting_holds_by_value() {
    for (value, refused) in [
        (-0.0, false),
        (12.0, false),
        (12.0_f32.next_up(), true),
        (-1e-45, true),
    ] {
        assert_eq!(
            refusal(&encode(&map(value, vec![]))).is_some(),
            refused,
            "{value}"
        );
    }
}

#[test]
fn times_and_durations_end_at_their_limits() {
    let times = [
        -0.0,
        8e6,
        -8e6,
        8e6_f64.next_up(),
        (-8e6_f64).next_down(),
        f64::INFINITY,
    ];
    for time in times {
        let expected = (time.abs() > 8e6).then_some((4, 14));
        assert_eq!(
            refusal(&encode(&map(5.0, vec![circle(time)]))),
            expected,
            "{time}"
        );
        assert_eq!(
            after_header(&[b"BR", &ZERO, &f64_bytes(time)]),
            expected,
            "{time}"
        );
    }
    for (duration, refused) in [
        (-0.0, false),
        (3.6e6, false),
        (-5e-324, true),
        (3.6e6_f64.next_up(), true),
    ] {
        let bytes = encode(&map(5.0, vec![spinner(0.0, duration)]));
        assert_eq!(refusal(&bytes).is_some(), refused, "{duration}");
    }
}

#[test]
fn a_slider_checks_start_count_cut_and_list() {
    let count = |count: u16| count.to_le_bytes();
    assert_eq!(after_header(&[b"SL", &NAN, &count(1_001)]), Some((4, 14)));
    assert_eq!(after_header(&[b"SL", &ZERO, &count(1_001)]), Some((6, 14)));
    assert_eq!(after_header(&[b"SL", &ZERO, &count(1_000)]), Some((2, 14)));
    assert_eq!(after_header(&[b"SL", &ZERO, &count(0)]), Some((5, 14)));
    assert_eq!(
        after_header(&[b"SL", &ZERO, &count(2), &[9]]),
        Some((2, 14))
    );
    for list in [[0, 0], [2, 2], [3, 2], [2, 0]] {
        assert_eq!(
            after_header(&[b"SL", &ZERO, &count(2), &list]),
            Some((5, 14))
        );
    }
    assert_eq!(after_header(&[b"SL", &ZERO, &count(2), &[1, 2]]), None);
}

#[test]
fn record_counts_come_before_a_cut() {
    let breaks = vec![
        Break {
            start: 0.0,
            end: 0.0
        };
        128
    ];
    let full = encode(&MapFile {
        breaks,
        ..MapFile::default()
    });
    let end = full.len();
    assert_eq!(refusal(&full), None);
    assert_eq!(refusal(&[&full[..], b"BR"].concat()), Some((6, end)));
    assert_eq!(refusal(&[&full[..], b"B"].concat()), Some((2, end)));
    let moved = [&full[..], b"CI", &ZERO, b"BR"].concat();
    assert_eq!(refusal(&moved), Some((3, end + 10)));

    let full = encode(&map(5.0, vec![circle(0.0); 8_192]));
    let end = full.len();
    assert_eq!(refusal(&full), None);
    assert_eq!(refusal(&[&full[..], b"SL"].concat()), Some((6, end)));
    assert_eq!(refusal(&[&full[..], b"PL"].concat()), Some((2, end)));
}

#[test]
fn the_bonus_is_refused_at_its_spinner() {
    // 75 times 28,401,800 is 2,130,135,000; one more passes the limit.
    let full = encode(&map(5.0, vec![spinner(0.0, 3.6e6); 75]));
    assert_eq!(refusal(&full), None);
    let end = full.len();
    let spinner = [b"SP", &ZERO[..], &f64_bytes(3.6e6)].concat();
    assert_eq!(
        refusal(&[&full[..], &spinner, b"XX"].concat()),
        Some((7, end))
    );
    assert_eq!(
        refusal(&[&full[..], &spinner[..17]].concat()),
        Some((2, end))
    );
}

/// The refusal of a play on a circle and a slider of a tick, a repeat and a tail.
fn of_play(change: impl Fn(&mut Play)) -> Option<(u8, usize)> {
    let mut play = play(2, 0);
    change(&mut play);
    let map = map(5.0, vec![circle(0.0), slider(0.0, "tre")]);
    let offset = encode(&map).len();
    let refusal = refusal(&encode(&with_play(map, play)));
    refusal.map(|(number, at)| (number, at - offset))
}

#[test]
fn a_play_must_fit_its_map() {
    assert_eq!(of_play(|_| {}), None);
    assert_eq!(of_play(|p| p.max_combo = 5), None);
    assert_eq!(of_play(|p| p.max_combo = 6), Some((9, 0)));
    assert_eq!(of_play(|p| p.n100 = 1), None);
    assert_eq!(of_play(|p| p.n100 = 2), Some((9, 0)));
    assert_eq!(
        of_play(|p| (p.n300, p.n100) = (u16::MAX, u16::MAX)),
        Some((9, 0))
    );
    assert_eq!(of_play(|p| (p.passed, p.max_combo) = (1, 2)), Some((9, 0)));
    assert_eq!(
        of_play(|p| (p.passed, p.n300, p.max_combo) = (0, 0, 1)),
        Some((9, 0))
    );
    assert_eq!(of_play(|p| p.passed = u16::MAX), None);
}

#[test]
fn slider_hits_are_checked_for_origin_1_only() {
    for origin in [
        Origin::Stable,
        Origin::WithSliderAcc,
        Origin::WithoutSliderAcc,
    ] {
        let expected = (origin == Origin::WithSliderAcc).then_some((9, 0));
        let hits = |large, ends| {
            of_play(|p| (p.origin, p.large_tick_hits, p.slider_end_hits) = (origin, large, ends))
        };
        assert_eq!(hits(2, 1), None);
        assert_eq!(hits(3, 1), expected);
        assert_eq!(hits(2, 2), expected);
        assert_eq!(
            of_play(|p| (p.origin, p.small_tick_hits) = (origin, u32::MAX)),
            None
        );
    }
}

#[test]
fn a_play_field_comes_before_the_map() {
    let base = map(5.0, vec![circle(0.0)]);
    let offset = encode(&base).len();
    let mut play_bytes = Vec::new();
    encode::play(&mut play_bytes, &play(1, 9));
    let with = |place: usize, bytes: &[u8]| {
        let mut changed = play_bytes.clone();
        changed[place..place + bytes.len()].copy_from_slice(bytes);
        refusal(&[encode(&base), changed].concat())
    };
    assert_eq!(with(0, b"PL"), Some((9, offset)));
    assert_eq!(with(28, &[3]), Some((8, offset)));
    assert_eq!(with(29, &[2]), Some((8, offset)));
    assert_eq!(with(29, &[0]), Some((8, offset)), "a score while absent");
    assert_eq!(with(34, &512_u16.to_le_bytes()), Some((8, offset)));
    for rate in [
        0.0,
        -0.0,
        -1.0,
        100.0_f64.next_up(),
        f64::NAN,
        f64::INFINITY,
    ] {
        assert_eq!(with(36, &f64_bytes(rate)), Some((8, offset)), "{rate}");
    }
    assert_eq!(with(36, &f64_bytes(5e-324)), Some((9, offset)));
    assert_eq!(with(36, &f64_bytes(100.0)), Some((9, offset)));
}

#[test]
fn no_combo_refuses_an_estimate() {
    let mut objects = vec![ticks(1_000); 46];
    objects.extend(vec![circle(0.0); 296]);
    let base = map(5.0, objects);
    let offset = encode(&base).len();
    let of = |change: fn(&mut Play)| {
        let mut play = play(u16::MAX, 46_342);
        change(&mut play);
        refusal(&encode(&with_play(base.clone(), play)))
    };
    assert_eq!(of(|_| {}), None);
    assert_eq!(of(|p| p.origin = Origin::WithoutSliderAcc), None);
    assert_eq!(of(|p| p.max_combo += 1), Some((9, offset)));
    assert_eq!(of(|p| p.passed = 341), Some((9, offset)));
}

#[test]
fn the_first_refusal_in_the_file_stands() {
    let refused_play = encode(&with_play(map(5.0, vec![circle(0.0)]), play(1, 9)));
    assert_eq!(refusal(&[&refused_play[..], b"CI"].concat()), Some((9, 24)));
}
