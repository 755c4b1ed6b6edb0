//! The text form, both ways.

use popejoanplum::{
    MapFile, Mods, Origin, explain, score_map,
    text::{assemble, show},
};

/// Document 01's worked example.
const EXAMPLE: &str = "\
map hp 5 od 5 cs 5
circle 0
slider 5000 tick repeat tick tail
circle 10000
play passed 3 combo 7 n300 3 score 1250
";

#[test]
fn the_worked_example() {
    let stored = concat!(
        env!("CARGO_MANIFEST_DIR"),
        "/../../examples/worked-example.map"
    );
    let stored = std::fs::read(stored).unwrap();
    assert_eq!(assemble(EXAMPLE).as_ref(), Ok(&stored));
    assert_eq!(show(&stored).as_deref(), Ok(EXAMPLE));
}

/// A text with other spaces, comments, decimals and orders of fields is the canonical one in the end.
#[test]
fn texts_become_canonical() {
    let loose = "
        # by hand
        map   cs 5.000 hp 5e0 od +5\r
        circle -0e5#at once

        slider 5e3 tick*1 repeat tick tail
        circle 10000.
        play score 1250 n300 3 combo 7 rate 1.0 flags none origin stable misses 0
    ";
    assert_eq!(
        show(&assemble(loose).unwrap()).unwrap(),
        EXAMPLE.replace("circle 0", "circle -0")
    );
}

#[test]
fn every_field_of_a_play() {
    let text = "map hp 0 od 0 cs 0\nplay passed 1 combo 2 n300 3 n100 4 n50 5 misses 6 large 7 small 8 ends 9 \
                origin without-slider-acc score 10 flags nf,ez,hd,hr,fl,so,rx,ap,sv2 rate 1.5";
    let file = assemble(text).unwrap();
    let due: [&[u8]; 13] = [
        b"PL",
        &[1, 0],
        &[2, 0, 0, 0],
        &[3, 0, 4, 0, 5, 0, 6, 0],
        &[7, 0, 0, 0],
        &[8, 0, 0, 0],
        &[9, 0, 0, 0],
        &[2],
        &[1],
        &[10, 0, 0, 0],
        &[0xff, 1],
        &[0, 0, 0, 0, 0, 0],
        &[0xf8, 0x3f],
    ];
    assert_eq!(file[14..], due.concat());
}

#[test]
fn what_is_left_out_of_a_play() {
    let play = |text: &str| {
        let file = assemble(text).unwrap();
        MapFile::from_bytes(&file).unwrap().plays[0]
    };
    let alone = play("map hp 0 od 0 cs 0\nplay");
    assert_eq!(alone, popejoanplum::Play::default());
    let after_two = play("map hp 0 od 0 cs 0\ncircle 0\ncircle 1\nplay");
    assert_eq!(after_two.passed_objects, 2);
    assert_eq!(
        (after_two.origin, after_two.score, after_two.mods),
        (Origin::Stable, None, Mods::NONE)
    );
}

/// The numbers are those of document 01's rules.
#[test]
fn files_that_the_library_refuses() {
    for (text, number, offset) in [
        ("", 3, 0),
        ("# nothing", 3, 0),
        ("circle 0", 3, 0),
        ("map hp 5 od 5 cs 5\nmap hp 5 od 5 cs 5", 3, 14),
        ("map hp 5 od 5 cs 5\ncircle 0\nbreak 0 1", 3, 24),
        ("map hp 12.5 od 5 cs 5", 4, 0),
        ("map hp 5 od 5 cs 5\ncircle 8000000.5", 4, 14),
        ("map hp 5 od 5 cs 5\ncircle 1e300", 4, 14),
        ("map hp 5 od 5 cs 5\nspinner 0 for -1", 4, 14),
        ("map hp 5 od 5 cs 5\nslider 0", 5, 14),
        ("map hp 5 od 5 cs 5\nslider 0 tick", 5, 14),
        ("map hp 5 od 5 cs 5\nslider 0 tail tail", 5, 14),
        ("map hp 5 od 5 cs 5\nslider 0 tick*1000 tail", 6, 14),
        ("map hp 5 od 5 cs 5\nslider 0 tick*65534 tail", 6, 14),
        ("map hp 5 od 5 cs 5\nplay rate 0", 8, 14),
        ("map hp 5 od 5 cs 5\nplay rate 100.5", 8, 14),
        ("map hp 5 od 5 cs 5\ncircle 0\nplay passed 1 n300 2", 9, 24),
    ] {
        let file = assemble(text).unwrap();
        let error = show(&file).unwrap_err();
        assert_eq!((error.number(), error.offset()), (number, offset), "{text}");
    }
}

#[test]
fn errors_have_their_line() {
    for (line, due) in [
        (
            "circel 0",
            "`circel` is no record: a line starts with map, break, circle, slider, spinner or play",
        ),
        ("circle", "the start is missing"),
        ("circle # 5", "the start is missing"),
        ("circle 5 6", "`6` is too much at the end of the circle"),
        ("circle nan", "the start `nan` is not a decimal number"),
        ("circle inf", "the start `inf` is not a decimal number"),
        ("circle 1e999", "the start `1e999` is too large for a float"),
        ("break 5", "the end is missing"),
        ("break 5 x", "the end `x` is not a decimal number"),
        (
            "spinner 5 1400",
            "the word `for` is missing: spinner START for DURATION",
        ),
        ("spinner 5 for", "the duration is missing"),
        ("map hp 5 od 5", "the cs is missing"),
        ("map hp 5 od 5 cs", "the cs is missing"),
        ("map hp 5 hp 5 od 5 cs 5", "the hp stands twice"),
        ("map hp x od 5 cs 5", "the hp `x` is not a decimal number"),
        (
            "map hp 1e39 od 5 cs 5",
            "the hp `1e39` is too large for a float",
        ),
        (
            "map 5 5 5",
            "`5` is no field of a map: the fields are hp, od, cs",
        ),
        (
            "slider 5 tik tail",
            "`tik` is no nested item: the items are tick, repeat and tail",
        ),
        (
            "slider 5 tick*0 tail",
            "the number behind * `0` is not a whole number from 1 to 65535",
        ),
        (
            "slider 5 tick*65535 tail",
            "a slider's record holds no more than 65535 nested items",
        ),
        (
            "play passed 65536",
            "the passed `65536` is not a whole number from 0 to 65535",
        ),
        (
            "play combo -1",
            "the combo `-1` is not a whole number from 0 to 4294967295",
        ),
        (
            "play score 1.5",
            "the score `1.5` is not a whole number from 0 to 4294967295",
        ),
        ("play score", "the score is missing"),
        ("play n300 1 n300 1", "the n300 stands twice"),
        (
            "play flags hd,xx",
            "`xx` is no flag: the flags are nf, ez, hd, hr, fl, so, rx, ap, sv2",
        ),
        (
            "play origin lazer",
            "`lazer` is no origin: the origins are stable, with-slider-acc and without-slider-acc",
        ),
        ("play rate fast", "the rate `fast` is not a decimal number"),
    ] {
        let error =
            assemble(format!("map hp 5 od 5 cs 5\n\n# three\n{line}\ncircle x")).unwrap_err();
        assert_eq!(error.to_string(), format!("line 4: {due}"));
        assert_eq!(error.line(), 4);
    }
    let error = assemble(b"map hp 5 od 5 cs 5\ncircle \xff").unwrap_err();
    assert_eq!(error.to_string(), "line 2: this is not UTF-8 text");
}

#[test]
fn explanations_of_each_rule() {
    let header = "map hp 5 od 5 cs 5\n";
    let of = |text: &str, cut: usize| {
        let mut file = assemble(format!("{header}{text}")).unwrap();
        file.truncate(file.len() - cut);
        explain(&file, &score_map(&file).unwrap_err())
    };
    let mut no_mark = assemble(header).unwrap();
    no_mark.extend(b"XX...");
    let no_mark = explain(&no_mark, &score_map(&no_mark).unwrap_err());
    let alone = assemble(format!("{header}spinner 0 for 3600000")).unwrap();
    let each = score_map(&alone).unwrap().legacy_bonus_score;
    let before = 2_147_483_647 / each * each;
    let much_bonus = of(&"spinner 0 for 3600000\n".repeat(83), 0);
    let bonus_line = format!("the legacy bonus of the objects before it is {before}\n");
    assert!(much_bonus.ends_with(&bonus_line), "{much_bonus}");
    for (given, due) in [
        (
            of("circle 1", 3),
            "rule 2: the input ends inside a record, or one byte is left for a mark
at 14, a circle:
      14  43 49                    mark CI
      16  00 00 00 00 00           start, cut: it has 8 bytes, 5 are there
",
        ),
        (
            of("circle 1", 9),
            "rule 2: the input ends inside a record, or one byte is left for a mark
at 14, no whole mark:
      14  43                       cut: a mark has 2 bytes, 1 are there
",
        ),
        (
            of("circle 1\nbreak 0 1", 0),
            "rule 3: a mark is unknown or out of order, or the input is empty; in an edit also: bytes follow the object's record
at 24, a break:
      24  42 52                    mark BR
      26  00 00 00 00 00 00 00 00  start 0.0 (-8,000,000 to 8,000,000)
      34  00 00 00 00 00 00 f0 3f  end 1.0 (-8,000,000 to 8,000,000)
the order is one MH, any BR, any of CI, SL and SP, any PL
",
        ),
        (
            of("slider 1 tick tail repeat tail", 0),
            "rule 5: a slider's nested list is wrong: its last item must be its only tail
at 14, a slider:
      14  53 4c                    mark SL
      16  00 00 00 00 00 00 f0 3f  start 1.0 (-8,000,000 to 8,000,000)
      24  04 00                    nested items 4 (1 to 1,000)
      26  00 02 01 02              tick tail repeat tail
at 27, item 1 of the list, from 0: a tail before the last item
",
        ),
        (
            no_mark,
            "rule 3: a mark is unknown or out of order, or the input is empty; in an edit also: bytes follow the object's record
at 14, no record:
      14  58 58                    no mark: the marks are MH, BR, CI, SL, SP and PL
",
        ),
        (
            of("slider 1 tick*30 tail", 4),
            "rule 2: the input ends inside a record, or one byte is left for a mark
at 14, a slider:
      14  53 4c                    mark SL
      16  00 00 00 00 00 00 f0 3f  start 1.0 (-8,000,000 to 8,000,000)
      24  1f 00                    nested items 31 (1 to 1,000)
      26  00 00 00 00 00 00 00 00  tick tick tick tick tick tick tick tick
      34  00 00 00 00 00 00 00 00  tick tick tick tick tick tick tick tick
      42  00 00 00 00 00 00 00 00  tick tick tick tick tick tick tick tick
          and 3 items more
the list is cut: it has 31 items, 27 are there
",
        ),
        (
            of("slider 1 tick*1000 tail", 0),
            "rule 6: a 129th break, an 8,193rd object, or more than 1,000 nested items
at 14, a slider:
      14  53 4c                    mark SL
      16  00 00 00 00 00 00 f0 3f  start 1.0 (-8,000,000 to 8,000,000)
      24  e9 03                    nested items 1001 (1 to 1,000)
",
        ),
        (
            of("circle 1\nslider 2 tick repeat tail\nplay n300 3 score 9 flags hr origin without-slider-acc", 0),
            "rule 9: the play exceeds its map: too many judgements, too much combo or too many slider hits
at 39, a play:
      39  50 4c                    mark PL
      41  02 00                    passed objects 2
      43  00 00 00 00              max combo 0
      47  03 00                    n300 3
      49  00 00                    n100 0
      51  00 00                    n50 0
      53  00 00                    misses 0
      55  00 00 00 00              large tick hits 0
      59  00 00 00 00              small tick hits 0
      63  00 00 00 00              slider end hits 0
      67  02                       origin 2, without slider acc (0 to 2)
      68  01                       score present 1 (0 or 1)
      69  09 00 00 00              score 9 (0 if absent)
      73  08 00                    flags 8, hr (0 to 511)
      75  00 00 00 00 00 00 f0 3f  clock rate 1.0 (above 0, at most 100)
of the passed objects: count 2, max combo 5, sliders 1, ticks 1, repeats 1
",
        ),
    ] {
        assert_eq!(given, due);
    }
}
