//! Lists of calls: the board that they are held to, what a generated list has, and the answers.

mod common;

use common::{circle, map, play, slider, spinner};
use oracle::{
    board::{ENTRY, board, places},
    calls::{Call, List},
    encode::{self, encode},
    generate::{calls::list, map_file},
    given::Factors,
    map::{MapFile, Object, Play},
    stand_in::exp,
    values::Original,
};

fn entries(objects: &[Object]) -> Vec<[u64; ENTRY]> {
    let words = board(objects);
    let (entries, rest) = words.as_chunks();
    assert!(rest.is_empty());
    entries.to_vec()
}

#[test]
fn run_5_has_its_top_entry() {
    let entries = entries(&[circle(0.0), slider(5_000.0, "trte"), circle(10_000.0)]);
    assert_eq!(entries.len(), 8);
    assert_eq!(entries[0], [0; ENTRY]);
    assert_eq!(entries[1], [3, 7, 12, 1, 1010, 0, 0, 2, 1, 0, 1, 2, 0]);
    assert_eq!(entries[7], [0; ENTRY]);
}

#[test]
fn run_7_is_an_entry() {
    let entries = entries(&[spinner(0.0, 1_000.0)]);
    assert_eq!(
        entries[1],
        [1, 1, 0, 1, 300, 4700, 230, 0, 0, 1, 0, 0, 1700]
    );
}

#[test]
fn no_objects_have_two_zero_entries() {
    assert_eq!(board(&[]), [0; 2 * ENTRY]);
}

/// An entry of the objects of both halves.
fn joined(a: &[u64; ENTRY], b: &[u64; ENTRY]) -> [u64; ENTRY] {
    let mut words = std::array::from_fn(|word| a[word] + b[word]);
    words[2] += a[1] * b[0];
    words[3] = if a[0] > 0 { a[3] } else { b[3] };
    words
}

#[test]
fn entries_join_and_the_top_one_has_the_map() {
    for index in 0..300 {
        let map = map_file(8, index);
        let entries = entries(&map.objects);
        let places = places(map.objects.len());
        assert_eq!(entries.len(), 2 * places);
        for entry in 1..places {
            let below = joined(&entries[2 * entry], &entries[2 * entry + 1]);
            assert_eq!(entries[entry], below, "file {index}, entry {entry}");
        }
        let a = Original::new(&map).attributes(map.objects.len());
        let [
            q,
            k,
            s,
            f,
            accuracy,
            legacy,
            standardised,
            counts @ ..,
            nested,
        ] = entries[1];
        let points = 12 * (s + f - q) as i64 * i64::from(a.multiplier);
        assert_eq!((q, k), (a.objects.into(), a.max_combo.into()));
        assert_eq!((accuracy as i32, points), (a.accuracy_score, a.combo_score));
        assert_eq!(
            (legacy as i32, standardised as i32),
            (a.legacy_bonus, a.standardised_bonus)
        );
        let of_map = [a.circles, a.sliders, a.spinners, a.repeats, a.ticks];
        assert_eq!(counts, of_map.map(u64::from));
        let of_sliders = 30 * (2 * a.sliders + a.repeats) + 10 * a.ticks;
        let score = nested + u64::from(of_sliders);
        assert!(q == 0 || score as f64 / q as f64 == a.nested_per_object);
    }
}

#[test]
fn a_seed_gives_the_same_calls_again() {
    let stream = |seed| -> Vec<u8> {
        let calls = (0..40).flat_map(|index| list(seed, index));
        calls.flat_map(|call| call.encode()).collect()
    };
    assert_eq!(stream(9), stream(9));
    assert_ne!(stream(9), stream(10));
}

#[test]
fn calls_come_back_from_their_frames() {
    for call in (0..40).flat_map(|index| list(4, index)) {
        let frame = call.encode();
        assert_eq!(Call::decode(&frame).expect("a call").encode(), frame);
    }
}

#[test]
fn lists_meet_each_refusal() {
    let mut met = [0_u32; 15];
    for index in 0..500 {
        let mut answers = List::default();
        for call in list(6, index) {
            let text = answers.answer(&call).expect("a call that a list may have");
            let number = text.strip_prefix("refused ").map_or(0, |rest| {
                let (number, _) = rest.split_once(' ').expect("a refusal's line");
                number.parse().expect("a number")
            });
            met[number] += 1;
        }
    }
    // 10 is given by no call, and 13 is of a board that no build made.
    let is_met = |number: usize| match number {
        10 | 13 => met[number] == 0,
        _ => met[number] > 5,
    };
    assert!((2..15).all(is_met), "{met:?}");
}

fn build(map: &MapFile, words: u32, starts: u32) -> Call {
    Call::Build {
        words,
        starts,
        file: encode(map),
    }
}

fn edit(count: u32, place: u32, object: &Object) -> Call {
    let mut record = Vec::new();
    encode::object(&mut record, object);
    Call::Edit {
        count,
        place,
        record,
    }
}

fn read(map: &MapFile, play: Play) -> Call {
    Call::Read {
        is_own: true,
        factors: None,
        count: map.objects.len() as u32,
        settings: map.settings,
        breaks: Vec::new(),
        play,
    }
}

#[test]
fn an_edit_changes_what_is_read() {
    let two = map(5.0, vec![circle(0.0), circle(500.0)]);
    let mut list = List::default();
    let mut answer = |call| list.answer(&call);
    assert_eq!(
        answer(build(&two, 51, 2)),
        Ok("refused 11 at 0\n".to_owned())
    );
    assert_eq!(answer(build(&two, 60, 3)), Ok("built\n".to_owned()));
    let line =
        |text: Result<String, String>| text.expect("an answer").lines().next().map(str::to_owned);
    let attrs = |text: &str| Some(text.to_owned());
    assert_eq!(
        line(answer(read(&two, play(2, 2)))),
        attrs("attrs 0 2 4 600 0 0000000000000000 0 0 2 0000000000000000 2 0 0 0 0")
    );
    assert_eq!(
        answer(edit(2, 0, &slider(0.0, "te"))),
        Ok("done\n".to_owned())
    );
    assert_eq!(
        line(answer(read(&two, play(2, 2)))),
        attrs("attrs 2 2 4 670 192 0000000000000000 0 0 4 4041800000000000 1 1 0 0 1")
    );
    for (call, number) in [
        (edit(2, 2, &circle(0.0)), 12),
        (edit(8_193, 0, &circle(0.0)), 6),
        (edit(3, 3, &circle(0.0)), 11),
        (edit(1, 1, &circle(0.0)), 12),
        (edit(2, 1, &circle(f64::NAN)), 4),
        (read(&two, play(2, 5)), 9),
    ] {
        assert_eq!(answer(call), Ok(format!("refused {number} at 0\n")));
    }
    assert!(answer(edit(1, 0, &circle(0.0))).is_err());
    assert!(answer(read(&map(4.0, two.objects.clone()), play(2, 2))).is_err());
}

fn read_with(map: &MapFile, play: Play, aim: f64, speed: f64) -> Call {
    let mut call = read(map, play);
    if let Call::Read { factors, .. } = &mut call {
        *factors = Some(Factors { aim, speed });
    }
    call
}

#[test]
fn factors_add_a_line_and_14() {
    let three = map(5.0, vec![circle(0.0), circle(500.0), circle(900.0)]);
    let mut list = List::default();
    let mut answer = |call| list.answer(&call).expect("a call of this list");
    assert_eq!(answer(build(&three, 104, 3)), "built\n");
    // Two misses, a 100 and no combo: 1 is the most, and half of that stays.
    let two_misses = Play {
        n300: 0,
        n100: 1,
        misses: 2,
        score: None,
        ..play(3, 0)
    };
    let without = answer(read(&three, two_misses.clone()));
    let mut due = without
        .replace("attrs 0", "attrs 1")
        .replace("play 0", "play 1");
    let breaks: f64 = 0.5 / (1.0 + exp(15.0 * (0.33 - 1.0)));
    due += &format!("breaks 1 {:016x} 8000000000000000\n", breaks.to_bits());
    assert_eq!(
        answer(read_with(&three, two_misses.clone(), 0.5, -0.0)),
        due
    );
    for (call, number) in [
        (
            read_with(&three, two_misses.clone(), 10.0_f64.next_up(), 0.0),
            14,
        ),
        (read_with(&three, two_misses.clone(), 0.0, f64::NAN), 14),
        (read_with(&three, play(3, 4), 11.0, 0.0), 9),
        (
            read_with(
                &three,
                Play {
                    flags: 512,
                    ..two_misses
                },
                11.0,
                0.0,
            ),
            8,
        ),
    ] {
        assert_eq!(answer(call), format!("refused {number} at 0\n"));
    }
}
