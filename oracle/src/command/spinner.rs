use std::{
    fmt::Write as _,
    io::{self, BufRead, BufWriter, Write},
};

use super::output_failed;
use crate::{
    encode::encode,
    frame::write_frame,
    listing::float,
    map::{MapFile, Object, ObjectKind, Play},
    spinner::{self, MAX_DURATION, half_spins_possible, half_spins_required},
    values::Original,
};

/// Points of a spinner for each duration on standard input.
pub fn spinner() -> Result<(), String> {
    let mut output = BufWriter::new(io::stdout().lock());
    for (index, line) in io::stdin().lock().lines().enumerate() {
        let line = line.map_err(|why| format!("standard input: {why}"))?;
        let duration = duration(line.trim())
            .ok_or_else(|| format!("line {}: not the bits of a duration: {line:?}", index + 1))?;
        output
            .write_all(points(duration).as_bytes())
            .map_err(output_failed)?;
    }
    output.flush().map_err(output_failed)
}

fn duration(digits: &str) -> Option<f64> {
    let duration = f64::from_bits(u64::from_str_radix(digits, 16).ok()?);
    (0.0..=MAX_DURATION).contains(&duration).then_some(duration)
}

/// A map of one spinner, with a play that passes it.
fn map_of(duration: f64) -> MapFile {
    MapFile {
        objects: vec![Object {
            start: 0.0,
            kind: ObjectKind::Spinner { duration },
        }],
        plays: vec![Play {
            passed: 1,
            ..Play::default()
        }],
        ..MapFile::default()
    }
}

/// T and R are locals of the original, so they come from `crate::spinner`; the points are its own.
fn points(duration: f64) -> String {
    let a = Original::new(&map_of(duration)).attributes(1);
    format!(
        "{} {} {} {} {} {}\n",
        float(duration),
        half_spins_possible(duration),
        half_spins_required(duration),
        a.legacy_bonus,
        a.standardised_bonus,
        a.nested_per_object,
    )
}

/// All durations beside a change of T or B.
pub fn edges() -> Result<(), String> {
    let mut text = String::new();
    for bits in spinner::edges() {
        writeln!(text, "{bits:016x}").expect("a string takes all text");
    }
    super::write_out(text.as_bytes())
}

/// For each of these durations a map file, as a frame.
pub fn files() -> Result<(), String> {
    let mut output = BufWriter::new(io::stdout().lock());
    for bits in spinner::edges() {
        write_frame(&mut output, &encode(&map_of(f64::from_bits(bits))))?;
    }
    output.flush().map_err(output_failed)
}
