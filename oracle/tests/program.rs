//! The program's modes from outside.

use std::{
    io::Write,
    process::{Command, Output, Stdio},
};

fn oracle(arguments: &[&str], input: &[u8]) -> Output {
    let mut child = Command::new(env!("CARGO_BIN_EXE_oracle"))
        .args(arguments)
        .stdin(Stdio::piped())
        .stdout(Stdio::piped())
        .stderr(Stdio::piped())
        .spawn()
        .expect("the program starts");
    // A program that refuses its arguments does not read.
    let _ = child.stdin.take().expect("a pipe").write_all(input);
    child.wait_with_output().expect("the program ends")
}

fn text(arguments: &[&str], input: &[u8]) -> String {
    let output = oracle(arguments, input);
    assert!(output.status.success(), "{arguments:?}: {output:?}");
    String::from_utf8(output.stdout).expect("text")
}

fn frame(bytes: &[u8]) -> Vec<u8> {
    [&(bytes.len() as u32).to_le_bytes(), bytes].concat()
}

#[test]
fn bad_calls_end_with_status_2_and_one_line() {
    let cases: [(&[&str], &[u8]); 23] = [
        (&[], b""),
        (&["unknown"], b""),
        (&["list", "--other"], b""),
        (&["gen", "1", "2"], b""),
        (&["gen", "1", "many", "-"], b""),
        (&["gen", "1", "-2", "-"], b""),
        (&["gen-damaged", "x", "2", "-"], b""),
        (&["gen-calls", "1", "2", "folder"], b""),
        (&["gen-breaks", "1", "2", "folder"], b""),
        (&["trace-breaks"], b"\x03\x00\x00\x00\x00\x00\x00"),
        (&["trace-breaks"], b"\x04\x00\x00\x00\x01\x00\x00\x00"),
        (&["gen-heats", "1", "2", "folder"], b""),
        (&["trace-heats"], b"\x07\x00\x00\x00\0\0\0\0\0\0\0"),
        (&["trace-heats"], b"\x08\x00\x00\x00\0\0\0\0\x01\0\0\0"),
        (&["trace-calls"], b"\x01\x00\x00\x00\x05"),
        (&["trace-calls"], b"\x09\x00\x00\x00\x01\0\0\0\0\0\0\0\0"),
        (&["replay-rows", "/nowhere/table.txt", "1", "1", "-"], b""),
        (&["attrs", "one"], b""),
        (&["serve"], b"\x01\x00"),
        (&["serve"], b"\xff\xff\xff\xffMH"),
        (&["serve-attrs"], b"\x00\x00\x00\x00\x02\x00\x00\x00\x01"),
        (&["spinner"], b"xyz\n"),
        (&["check-refusals", "/nowhere/table.txt"], b""),
    ];
    for (arguments, input) in cases {
        let output = oracle(arguments, input);
        let message = String::from_utf8(output.stderr).expect("text");
        assert_eq!(output.status.code(), Some(2), "{arguments:?}");
        assert!(
            message.starts_with("oracle: ") && message.lines().count() == 1,
            "{message}"
        );
    }
}

#[test]
fn listings_come_alone_or_in_frames() {
    let example = oracle(&["example"], b"").stdout;
    let listing = text(&["list"], &example);
    assert!(listing.starts_with("map 3 2 1010 240 "));
    assert_eq!(text(&["list"], b""), "refused 3 at 0\n");
    let long = vec![b'x'; 65_537];
    assert_eq!(text(&["list"], &long), "refused 1 at 0\n");
    assert_eq!(text(&["list", "--library"], &long), "refused 3 at 0\n");

    let requests = [frame(&example), frame(b"M"), frame(&long)].concat();
    let answers = [listing.as_bytes(), b"refused 2 at 0\n", b"refused 1 at 0\n"];
    let expected: Vec<u8> = answers.iter().flat_map(|answer| frame(answer)).collect();
    assert_eq!(oracle(&["serve"], &requests).stdout, expected);
}

#[test]
fn attributes_come_by_plays_or_by_passed_counts() {
    let example = oracle(&["example"], b"").stdout;
    let line = "attrs 0 3 2 1010 240 0000000000000000 0 0 7 4042555555555555 2 1 0 1 2\n";
    assert_eq!(text(&["attrs"], &example), line);
    assert_eq!(text(&["attrs", "3"], &example), line);
    let none = "attrs 0 0 4 0 0 0000000000000000 0 0 0 nan 0 0 0 0 0\n";
    assert_eq!(text(&["attrs", "0"], &example), none);

    let mut request = frame(&example);
    for number in [1_u32, 0] {
        request.extend(number.to_le_bytes());
    }
    assert_eq!(
        oracle(&["serve-attrs"], &request).stdout,
        frame(none.as_bytes())
    );
}

#[test]
fn spinners_give_their_points() {
    let bits = [1000.0_f64, 1400.0].map(|duration| format!("{:016x}\n", duration.to_bits()));
    let points = text(&["spinner"], bits.concat().as_bytes());
    assert_eq!(
        points,
        "408f400000000000 15 3 4700 230 1700\n4095e00000000000 22 4 8800 460 3100\n"
    );
}

#[test]
fn edges_rise_and_hold_both_ends() {
    let edges = text(&["spinner-edges"], b"");
    let lines: Vec<&str> = edges.lines().collect();
    assert!(lines.is_sorted() && lines.len() > 3 * 57_240);
    assert_eq!(
        (lines[0], lines[lines.len() - 1]),
        ("0000000000000000", "414b774000000000")
    );
}

#[test]
fn the_reader_agrees_with_the_table_of_refusals() {
    let table = concat!(env!("CARGO_MANIFEST_DIR"), "/../vectors/refusals.txt");
    let counts = text(&["check-refusals", table], b"");
    assert!(counts.contains(" agree, 0 differ, "), "{counts}");
}
