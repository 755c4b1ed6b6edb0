//! Map files as text, and their listings. `maptext --help` says how.

use std::{
    env,
    io::{self, Read, Write},
    process::ExitCode,
};

use popejoanplum::{LISTING_LIMIT, explain, listing, refusal_line, text};

const HELP: &str = "\
maptext assemble          text on standard input, its map file on standard output
maptext show [--explain]  a map file on standard input, its text on standard output
maptext list [--explain]  a map file on standard input, its listing on standard output

A refused file: `show` says so on standard error, `list` lists `refused N at OFFSET`. With --explain
the rule follows on standard error in words, with the record that breaks it. The exit status is 0, or
1 for a refused file, a wrong text or failing input or output, or 2 for wrong arguments.

A text has a record a line, and comments behind #:

  map hp 5 od 5 cs 4
  break 1000 2000.5
  circle 0
  slider 5000 tick repeat tick tail
  spinner 9000 for 1400
  play passed 3 combo 7 n300 3 score 1250 flags hd,hr

Of a slider's items tick*3 is three ticks. The fields of a play: passed (all objects above where it is
left out); combo, n300, n100, n50, misses, large, small, ends (0); origin (stable; or with-slider-acc,
without-slider-acc); score (none); flags (none; nf, ez, hd, hr, fl, so, rx, ap, sv2); rate (1).
";

fn main() -> ExitCode {
    let arguments: Vec<String> = env::args_os()
        .skip(1)
        .map(|argument| argument.to_string_lossy().into_owned())
        .collect();
    let arguments: Vec<&str> = arguments.iter().map(String::as_str).collect();
    let done = match arguments[..] {
        ["assemble"] => assemble(),
        ["show"] => show(false),
        ["show", "--explain"] => show(true),
        ["list"] => list(false),
        ["list", "--explain"] => list(true),
        ["--help"] => put(HELP.as_bytes()),
        _ => {
            say(HELP);
            return ExitCode::from(2);
        }
    };
    match done {
        Ok(()) => ExitCode::SUCCESS,
        Err(message) => {
            say(&message);
            ExitCode::FAILURE
        }
    }
}

fn assemble() -> Result<(), String> {
    let given = take(u64::MAX)?;
    let file = text::assemble(given).map_err(|error| format!("{error}\n"))?;
    put(&file)
}

fn show(explains: bool) -> Result<(), String> {
    let file = take(u64::MAX)?;
    match text::show(&file) {
        Ok(text) => put(text.as_bytes()),
        Err(error) if explains => Err(refusal_line(&error) + &explain(&file, &error)),
        Err(error) => Err(format!("{error}\n")),
    }
}

fn list(explains: bool) -> Result<(), String> {
    // One byte above the limit tells that the input is too long.
    let file = take(LISTING_LIMIT as u64 + 1)?;
    match listing(&file) {
        Ok(text) => put(text.as_bytes()),
        Err(error) => {
            put(refusal_line(&error).as_bytes())?;
            Err(if explains {
                explain(&file, &error)
            } else {
                String::new()
            })
        }
    }
}

fn take(most: u64) -> Result<Vec<u8>, String> {
    let mut bytes = Vec::new();
    let read = io::stdin().lock().take(most).read_to_end(&mut bytes);
    read.map_err(|why| format!("standard input: {why}\n"))?;
    Ok(bytes)
}

fn put(bytes: &[u8]) -> Result<(), String> {
    let mut output = io::stdout().lock();
    let written = output.write_all(bytes).and_then(|()| output.flush());
    written.map_err(|why| format!("standard output: {why}\n"))
}

/// Where standard error fails too, the exit status is all that tells.
fn say(message: &str) {
    let _ = io::stderr().write_all(message.as_bytes());
}
