//! The listing program, run as a process.

use std::{
    io::Write,
    path::Path,
    process::{Command, Stdio},
};

/// Where `rt run` in crates/list leaves it.
const PROGRAM: &str = concat!(env!("CARGO_MANIFEST_DIR"), "/../crates/list/out/list");

/// The most bytes that it takes.
pub const MAX_INPUT: usize = 65_536;

/// Whether it can be timed on a file: it may not have been made.
pub fn takes(file: &[u8]) -> bool {
    file.len() <= MAX_INPUT && Path::new(PROGRAM).is_file()
}

/// What it writes for a file on its standard input, which it reads to the end before it writes.
pub fn list(file: &[u8]) -> Vec<u8> {
    let mut process = Command::new(PROGRAM)
        .stdin(Stdio::piped())
        .stdout(Stdio::piped())
        .spawn()
        .expect("the listing program starts");
    let mut input = process.stdin.take().expect("it has a standard input");
    input.write_all(file).expect("it takes the whole file");
    drop(input);
    let output = process.wait_with_output().expect("it ends");
    assert!(output.status.success(), "the listing program failed");
    output.stdout
}
