//! The program maptext: what it prints and its exit status.

use std::{
    io::Write,
    process::{Command, Output, Stdio},
};

use popejoanplum::{LISTING_LIMIT, MapFile, refusal_line, score_map};

/// The stored rows of `replay`, as vectors/README.md has them: refused files, and accepted ones with
/// the Rust's listing. Of each its kind, the text that is due, and the file.
fn rows() -> Vec<(u8, String, Vec<u8>)> {
    let stored = concat!(env!("CARGO_MANIFEST_DIR"), "/../../crates/replay/stdin");
    let stored = std::fs::read(stored).unwrap();
    let mut rest = &stored[..];
    let mut rows = Vec::new();
    while let Some((&kind, behind)) = rest.split_first() {
        let (due, behind) = sized(behind);
        let (file, behind) = sized(behind);
        rows.push((kind, text(due).to_owned(), file.to_vec()));
        rest = behind;
    }
    rows
}

/// Bytes behind their length, and what follows them.
fn sized(bytes: &[u8]) -> (&[u8], &[u8]) {
    let (length, rest) = bytes.split_first_chunk().expect("a length");
    rest.split_at(u32::from_le_bytes(*length) as usize)
}

/// Accepted files with the Rust's listing.
fn good_files() -> impl Iterator<Item = (String, Vec<u8>)> {
    let accepted = rows().into_iter().filter(|(kind, ..)| *kind == 2);
    accepted.map(|(_, due, file)| (due, file))
}

fn run(arguments: &[&str], input: &[u8]) -> Output {
    let mut child = Command::new(env!("CARGO_BIN_EXE_maptext"))
        .args(arguments)
        .stdin(Stdio::piped())
        .stdout(Stdio::piped())
        .stderr(Stdio::piped())
        .spawn()
        .unwrap();
    let mut stdin = child.stdin.take().unwrap();
    // A program that has seen enough does not read the rest.
    let input = input.to_vec();
    let writer = std::thread::spawn(move || {
        let _ = stdin.write_all(&input);
    });
    let output = child.wait_with_output().unwrap();
    writer.join().unwrap();
    output
}

fn code(output: &Output) -> i32 {
    output.status.code().expect("an exit, not a signal")
}

fn text(bytes: &[u8]) -> &str {
    str::from_utf8(bytes).unwrap()
}

#[test]
fn lists_as_the_rust_does() {
    let short = good_files().filter(|(_, file)| file.len() <= LISTING_LIMIT);
    for (due, file) in short {
        let output = run(&["list"], &file);
        assert_eq!((code(&output), text(&output.stdout)), (0, &due[..]));
        assert!(output.stderr.is_empty());
    }
    for size in [LISTING_LIMIT, LISTING_LIMIT + 1, 300_000] {
        let output = run(&["list"], &vec![0; size]);
        let number = if size > LISTING_LIMIT { 1 } else { 3 };
        let due = format!("refused {number} at 0\n");
        assert_eq!((code(&output), text(&output.stdout)), (1, &due[..]));
        assert!(output.stderr.is_empty());
    }
}

#[test]
fn shows_and_assembles() {
    for (_, file) in good_files().take(60) {
        let shown = run(&["show"], &file);
        assert_eq!((code(&shown), text(&shown.stderr)), (0, ""));
        let back = run(&["assemble"], &shown.stdout);
        assert_eq!((code(&back), text(&back.stderr)), (0, ""));
        assert_eq!(back.stdout, file);
    }
}

#[test]
fn a_refused_file_is_told() {
    let mut refused = 0;
    for (_, due, file) in rows() {
        let Err(error) = score_map(&file) else {
            continue;
        };
        refused += 1;
        let line = refusal_line(&error);
        let shown = run(&["show"], &file);
        assert_eq!(code(&shown), 1);
        assert!(text(&shown.stderr).starts_with(&format!("{}: ", line.trim_end())));
        assert!(shown.stdout.is_empty());
        let rule = format!("rule {}: ", error.number());
        let explained = run(&["show", "--explain"], &file);
        assert_eq!(code(&explained), 1);
        assert!(text(&explained.stderr).starts_with(&format!("{line}{rule}")));
        let listed = run(&["list", "--explain"], &file);
        assert_eq!(code(&listed), 1);
        if file.len() <= LISTING_LIMIT {
            assert_eq!((&due, text(&listed.stdout)), (&line, &line[..]));
            assert!(text(&listed.stderr).starts_with(&rule));
        }
    }
    assert!(refused > 30, "{refused}");
}

#[test]
fn a_wrong_text_is_told() {
    let output = run(&["assemble"], b"map hp 5 od 5 cs 5\ncircle\n");
    assert_eq!(code(&output), 1);
    assert_eq!(text(&output.stderr), "line 2: the start is missing\n");
    assert!(output.stdout.is_empty());
}

#[test]
fn wrong_arguments_get_the_help() {
    let help = run(&["--help"], b"");
    assert_eq!(code(&help), 0);
    for arguments in [
        &[][..],
        &["lst"],
        &["list", "--explian"],
        &["assemble", "--explain"],
        &["show", "file"],
    ] {
        let output = run(arguments, b"");
        assert_eq!(code(&output), 2);
        assert_eq!(output.stderr, help.stdout);
        assert!(output.stdout.is_empty());
    }
}

/// The help's own text is one.
#[test]
fn the_helps_text_is_a_file() {
    let help = run(&["--help"], b"");
    let of_text = |line: &&str| line.starts_with("  ");
    let lines: Vec<&str> = text(&help.stdout).lines().filter(of_text).collect();
    let file = run(&["assemble"], lines.join("\n").as_bytes());
    assert_eq!((lines.len(), code(&file)), (6, 0));
    assert_eq!(code(&run(&["list"], &file.stdout)), 0);
}

#[test]
fn failing_output_is_told() {
    let full = std::fs::File::options()
        .write(true)
        .open("/dev/full")
        .unwrap();
    let file = MapFile::default().to_bytes();
    let mut child = Command::new(env!("CARGO_BIN_EXE_maptext"))
        .arg("list")
        .stdin(Stdio::piped())
        .stdout(full)
        .stderr(Stdio::piped())
        .spawn()
        .unwrap();
    child.stdin.take().unwrap().write_all(&file).unwrap();
    let output = child.wait_with_output().unwrap();
    assert_eq!(code(&output), 1);
    assert!(text(&output.stderr).starts_with("standard output: "));
}
