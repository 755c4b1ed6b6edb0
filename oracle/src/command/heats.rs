use std::{
    collections::BTreeMap,
    io::{self, BufReader, BufWriter, Write},
};

use super::output_failed;
use crate::{
    frame::{read_frame, write_frame},
    generate::{heats::heat, heats_report::labels},
    heats::Heat,
};

/// Heats, with the counts of what they have.
pub fn generate(seed: u64, count: u64) -> Result<(), String> {
    let mut output = BufWriter::new(io::stdout().lock());
    let mut counts = BTreeMap::<&str, u64>::new();
    for index in 0..count {
        let heat = heat(seed, index);
        for label in labels(&heat) {
            *counts.entry(label).or_default() += 1;
        }
        write_frame(&mut output, &heat.encode())?;
    }
    output.flush().map_err(output_failed)?;
    let lines: String = counts
        .iter()
        .map(|(label, n)| format!("{label}: {n}\n"))
        .collect();
    let written = io::stderr().write_all(lines.as_bytes());
    written.map_err(|why| format!("standard error: {why}"))
}

/// The answers to a stream of heats, as plain text one after the other.
pub fn trace() -> Result<(), String> {
    let mut input = BufReader::new(io::stdin().lock());
    let mut output = BufWriter::new(io::stdout().lock());
    for index in 0_u64.. {
        let Some(frame) = read_frame(&mut input)? else {
            break;
        };
        let heat =
            Heat::decode(&frame).ok_or_else(|| format!("frame {index} of the stream: no heat"))?;
        let text = heat.answer();
        output.write_all(text.as_bytes()).map_err(output_failed)?;
    }
    output.flush().map_err(output_failed)
}
