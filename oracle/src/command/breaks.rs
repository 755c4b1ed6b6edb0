use std::io::{self, BufReader, BufWriter, Write};

use super::output_failed;
use crate::{
    breaks::Frame,
    frame::{read_frame, write_frame},
    generate::{breaks::frame, breaks_report::BreaksReport},
};

/// Frames of plays with factors, with a report.
pub fn generate(seed: u64, count: u64) -> Result<(), String> {
    let mut output = BufWriter::new(io::stdout().lock());
    let mut report = BreaksReport::default();
    for index in 0..count {
        let frame = frame(seed, index);
        report.add(&frame);
        write_frame(&mut output, &frame.encode())?;
    }
    output.flush().map_err(output_failed)?;
    let written = write!(io::stderr(), "{report}");
    written.map_err(|why| format!("standard error: {why}"))
}

/// The answers to a stream of such frames, as plain text one after the other.
pub fn trace() -> Result<(), String> {
    let mut input = BufReader::new(io::stdin().lock());
    let mut output = BufWriter::new(io::stdout().lock());
    for index in 0_u64.. {
        let Some(bytes) = read_frame(&mut input)? else {
            break;
        };
        let frame = Frame::decode(&bytes)
            .ok_or_else(|| format!("frame {index} of the stream: no plays with factors"))?;
        let text = frame.answer();
        output.write_all(text.as_bytes()).map_err(output_failed)?;
    }
    output.flush().map_err(output_failed)
}
