//! The text form of generated files and of any text, both ways.

use oracle::{
    encode::encode,
    generate::{self, damage::damaged_file, random::Random},
    reader::read_library,
};
use popejoanplum::{
    explain, score_map,
    text::{assemble, show},
};

#[test]
fn accepted_files_come_back_byte_for_byte() {
    let good = (0..2_000).map(|index| encode(&generate::map_file(61, index)));
    // Some damaged files are accepted: flipped bits make floats that nobody writes.
    let damaged = (0..4_000).map(|index| damaged_file(61, index).0);
    let accepted = damaged.filter(|bytes| read_library(bytes).is_ok());
    let mut files = 0;
    for bytes in good.chain(accepted) {
        let text = show(&bytes).expect("an accepted file");
        assert_eq!(assemble(&text).as_ref(), Ok(&bytes), "{text}");
        files += 1;
    }
    assert!(files > 2_500, "{files} files");
}

/// The oracle's generator has few floats of the farthest kinds: here each float of a file is one.
#[test]
fn odd_floats_come_back_byte_for_byte() {
    let odd = |r: &mut Random, most: f64| {
        let any = most * r.unit();
        r.pick(&[
            0.0,
            -0.0,
            5e-324,
            f64::MIN_POSITIVE.next_down(),
            f64::MIN_POSITIVE,
            f64::EPSILON,
            0.1,
            1.0_f64.next_down(),
            most.next_down(),
            most,
            any,
            any * 1e-300,
        ])
    };
    for index in 0..500 {
        let mut r = Random::new(62, index);
        let mut map = generate::small_file(62, index);
        for setting in [
            &mut map.settings.hp,
            &mut map.settings.od,
            &mut map.settings.cs,
        ] {
            let any = 12.0 * r.unit() as f32;
            let odd = [
                0.0,
                -0.0,
                1e-45,
                f32::MIN_POSITIVE.next_down(),
                0.1,
                12.0,
                any,
            ];
            *setting = r.pick(&odd);
        }
        for b in &mut map.breaks {
            b.start = -odd(&mut r, 8e6);
            b.end = odd(&mut r, 8e6);
        }
        for object in &mut map.objects {
            object.start = odd(&mut r, 8e6) * r.pick(&[1.0, -1.0]);
            if let oracle::map::ObjectKind::Spinner { duration } = &mut object.kind {
                *duration = odd(&mut r, 60_000.0);
            }
        }
        for play in &mut map.plays {
            play.clock_rate = odd(&mut r, 100.0).abs().max(5e-324);
        }
        let bytes = encode(&map);
        let text = show(&bytes).expect("an accepted file");
        assert_eq!(assemble(&text).as_ref(), Ok(&bytes), "{text}");
        assert_eq!(show(&assemble(&text).unwrap()).as_ref(), Ok(&text));
    }
}

/// A text with other spaces, comments and forms of a list is the canonical one in the end.
#[test]
fn loose_texts_become_canonical() {
    for index in 0..500 {
        let text = show(&encode(&generate::map_file(63, index))).unwrap();
        let loose = text
            .replace('\n', " # end\n\n")
            .replace(" combo", "\tcombo")
            .replace("tick*2 ", "tick tick ");
        assert_eq!(show(&assemble(&loose).unwrap()).as_ref(), Ok(&text));
    }
}

/// Texts of known words and stray bytes in any order: an error has a line of the text, and a text
/// without one makes a file whose own text, if it is accepted, makes the same file.
#[test]
fn any_text() {
    let words = [
        "map",
        "hp",
        "od",
        "cs",
        "break",
        "circle",
        "slider",
        "tick",
        "tick*3",
        "tail",
        "repeat",
        "spinner",
        "for",
        "play",
        "passed",
        "combo",
        "flags",
        "hd,hr",
        "origin",
        "stable",
        "score",
        "rate",
        "0",
        "5",
        "-1e400",
        "1e-400",
        "65536",
        "*",
        "tick*",
        "#",
        "\u{e9}",
        ",",
        "-",
        ".",
        "e",
        "99999999999999999999",
    ];
    let (mut good, mut wrong) = (0, 0);
    for index in 0..20_000 {
        let mut r = Random::new(64, index);
        let mut text = String::new();
        if r.percent(70) {
            text += "map hp 5 od 5 cs 5\n";
        }
        for _ in 0..r.below(5) {
            text += r.pick(&["circle 0", "slider 1 tick tail", "play", "", "break 1 2"]);
            for _ in 0..r.pick(&[0, 0, 0, 1, 2, 4]) {
                text += " ";
                text += r.pick(&words);
            }
            text += "\n";
        }
        match assemble(&text) {
            Err(error) => {
                assert!((1..=text.lines().count()).contains(&error.line()));
                wrong += 1;
            }
            Ok(file) => {
                if let Ok(shown) = show(&file) {
                    assert_eq!(assemble(shown), Ok(file));
                }
                good += 1;
            }
        }
    }
    assert!(good > 1_000 && wrong > 1_000, "{good} good, {wrong} wrong");
}

/// Each damaged file is explained: the rule, and the record's offset and first bytes.
#[test]
fn explanations() {
    let mut last = None;
    for index in 0..6_000 {
        let (bytes, _) = damaged_file(65, index);
        let Err(refusal) = read_library(&bytes) else {
            continue;
        };
        let error = score_map(&bytes).unwrap_err();
        // Nor does the refusal of another file stop it.
        for error in [last.replace(error), Some(error)].into_iter().flatten() {
            let text = explain(&bytes, &error);
            assert!(text.starts_with(&format!("rule {}: ", error.number())));
        }
        let text = explain(&bytes, &error);
        match bytes.get(refusal.offset..) {
            None | Some([]) => assert!(text.ends_with("the input is empty\n")),
            Some([byte]) => assert!(text.contains(&format!("{:8}  {byte:02x} ", refusal.offset))),
            Some([a, b, ..]) => {
                let line = format!("{:8}  {a:02x} {b:02x} ", refusal.offset);
                assert!(text.contains(&line), "{text}");
            }
        }
    }
}
