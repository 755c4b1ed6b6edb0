//! Plays with factors: their frames, what a run of them has, and the answers.

mod common;

use common::{circle, map, slider, with_play};
use oracle::{
    breaks::{Frame, Given},
    encode::encode,
    generate::{breaks::frame, breaks_report::BreaksReport},
    given::{Factors, checked_play},
    map::{MapFile, Origin, Play},
    reader::read_library,
    stand_in::exp,
    values::{Attributes, Original},
};

#[test]
fn a_seed_gives_the_same_frames_again() {
    let stream = |seed| -> Vec<u8> { (0..60).flat_map(|i| frame(seed, i).encode()).collect() };
    assert_eq!(stream(9), stream(9));
    assert_ne!(stream(9), stream(10));
}

#[test]
fn frames_come_back_from_their_bytes() {
    for index in 0..200 {
        let bytes = frame(4, index).encode();
        assert_eq!(Frame::decode(&bytes).expect("a frame").encode(), bytes);
    }
    assert!(Frame::decode(&[1, 0, 0, 0]).is_none());
    assert!(Frame::decode(&[1, 0, 0]).is_none());
}

#[test]
fn a_run_meets_what_matters() {
    let mut report = BreaksReport::default();
    for index in 0..3_000 {
        report.add(&frame(3, index));
    }
    for label in [
        "origin 0",
        "origin 1",
        "origin 2",
        "no judgement",
        "no 100",
        "full combo",
        "combo 0",
        "less than a third of the combo missed",
        "a third or more missed",
        "nf",
        "sv2",
        "effective 0",
        "effective 1",
        "smoothstep inside",
        "effective above 2",
        "effective score-based and no whole number",
        "factor 0",
        "factor -0.0",
        "factor 10",
        "factor subnormal",
        "breaks 0",
        "breaks -0.0",
        "breaks above 0",
        "breaks subnormal",
        "capped at n100",
        "below n100 and above 0",
    ] {
        assert!(report.get(label) > 100, "{label}\n{report}");
    }
    for number in [2, 3, 4, 5, 6, 8, 9, 14] {
        assert!(report.refusals(number) > 5, "{number}\n{report}");
    }
}

/// The breaks by one factor, by the words of the papers.
fn plain_breaks(play: &Play, max_combo: u32, effective: f64, factor: f64) -> f64 {
    let n100 = f64::from(play.n100);
    if effective == 0.0 || play.origin == Origin::WithSliderAcc || play.n100 == 0 {
        return 0.0;
    }
    let missed = 1.0 - f64::from(play.max_combo) / f64::from(max_combo);
    let product = effective * factor;
    let capped = if product > n100 { n100 } else { product };
    let ok = ((n100 - capped) + 0.5) / n100;
    let x = (effective - 1.0).clamp(0.0, 1.0);
    let stepped = capped * ((x * x) * (3.0 - 2.0 * x));
    (stepped * ok) * (1.0 / (1.0 + exp(15.0 * (0.33 - missed))))
}

#[test]
fn the_original_breaks_as_the_papers_say() {
    let mut compared = 0;
    for index in 0..1_500 {
        let frame = frame(5, index);
        let Ok(map) = read_library(&frame.file) else {
            continue;
        };
        let original = Original::new(&map);
        for Given { factors, record } in &frame.given {
            let Ok(play) = checked_play(&frame.file, record, Some(*factors)) else {
                continue;
            };
            let a = original.attributes(play.passed.into());
            let estimates = a.estimates(&play);
            let breaks = a.slider_breaks(&play, &estimates, *factors);
            let due = [factors.aim, factors.speed]
                .map(|factor| plain_breaks(&play, a.max_combo, estimates.effective, factor));
            let range = 0.0..=f64::from(play.n100);
            assert!(range.contains(&breaks.aim) && range.contains(&breaks.speed));
            let bits = [breaks.aim, breaks.speed].map(f64::to_bits);
            assert_eq!(bits, due.map(f64::to_bits), "{play:?}, {factors:?}");
            compared += 1;
        }
    }
    assert!(compared > 4_000, "{compared}");
}

fn answer(map: &MapFile, play: &Play, aim: f64, speed: f64) -> String {
    let frame = Frame {
        given: vec![Given::new(play, Factors { aim, speed })],
        file: encode(map),
    };
    let frame = Frame::decode(&frame.encode()).expect("a frame");
    frame.answer()
}

/// A circle, a slider and a circle, and a play of three 100s that missed nothing but half the combo.
fn three() -> (MapFile, Play) {
    let objects = vec![circle(0.0), slider(5_000.0, "trte"), circle(10_000.0)];
    let play = Play {
        passed: 3,
        n100: 3,
        max_combo: 4,
        ..Play::default()
    };
    (map(5.0, objects), play)
}

#[test]
fn an_effective_count_is_what_breaks_are_made_of() {
    let (map, play) = three();
    // The full combo is 6.9, and 6.9 / 4 is within the 100s, but two lost combo a break at most.
    let text = answer(&map, &play, 1.0, -0.0);
    assert!(
        text.contains("\nplay 0 3fd5555555555555 3ff0000000000000 - "),
        "{text}"
    );
    assert!(
        text.ends_with("breaks 0 0000000000000000 8000000000000000\n"),
        "{text}"
    );
    let no_100 = Play {
        n100: 0,
        n50: 3,
        ..play.clone()
    };
    let text = answer(&map, &no_100, 1.0, -0.0);
    assert!(
        text.ends_with("breaks 0 0000000000000000 0000000000000000\n"),
        "{text}"
    );
    let full = Play {
        max_combo: 7,
        ..play
    };
    let text = answer(&map, &full, 10.0, -0.0);
    assert!(
        text.ends_with("breaks 0 0000000000000000 0000000000000000\n"),
        "{text}"
    );
}

#[test]
fn no_flag_zeroes_the_breaks() {
    let (map, play) = three();
    let play = Play {
        n100: 1,
        misses: 2,
        ..play
    };
    let due = answer(&map, &play, 1.0, 0.25);
    let (_, due) = due.rsplit_once("breaks").expect("a line of breaks");
    assert!(!due.contains(" 0000000000000000"), "{due}");
    for bit in 0..9 {
        let text = answer(
            &map,
            &Play {
                flags: 1 << bit,
                ..play.clone()
            },
            1.0,
            0.25,
        );
        assert!(text.ends_with(due), "flag {bit}: {text}");
    }
}

/// Of a board that no build made.
#[test]
fn without_combo_breaks_are_not_a_number() {
    let (map, play) = three();
    let a = Attributes {
        max_combo: 0,
        ..Original::new(&map).attributes(3)
    };
    let play = Play {
        n100: 1,
        misses: 2,
        max_combo: 0,
        ..play
    };
    let factors = Factors {
        aim: 1.0,
        speed: -0.0,
    };
    let breaks = a.slider_breaks(&play, &a.estimates(&play), factors);
    assert!(breaks.aim.is_nan() && breaks.speed.is_nan());
}

#[test]
fn factors_are_checked_last() {
    let (map, play) = three();
    let refused = |map: &MapFile, play: &Play| answer(map, play, 10.0_f64.next_up(), 0.0);
    assert_eq!(refused(&map, &play), "refused 14 at 0\n");
    assert_eq!(answer(&map, &play, 0.0, -5e-324), "refused 14 at 0\n");
    assert_eq!(answer(&map, &play, f64::NAN, 0.0), "refused 14 at 0\n");
    assert!(answer(&map, &play, 10.0, -0.0).starts_with("attrs "));
    let beyond = Play {
        max_combo: 8,
        ..play.clone()
    };
    assert_eq!(refused(&map, &beyond), "refused 9 at 0\n");
    let flags = Play {
        flags: 512,
        ..beyond.clone()
    };
    assert_eq!(refused(&map, &flags), "refused 8 at 0\n");
    let file_first = with_play(map, beyond);
    assert_eq!(refused(&file_first, &flags), "refused 9 at 50\n");
}
