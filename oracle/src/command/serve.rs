use std::io::{self, BufReader, BufWriter, Read, Write};

use super::output_failed;
use crate::{
    frame::{read_frame, read_u32, write_frame},
    listing::{attributes, listing, trace as trace_of},
    reader::{read_library, read_program},
};

/// Listings of many files, frame by frame.
pub fn serve(library: bool) -> Result<(), String> {
    let read = if library { read_library } else { read_program };
    answer_all(|_, file| Ok(listing(&read(file))))
}

/// Attributes of many files, each with its own passed counts.
pub fn serve_attrs() -> Result<(), String> {
    answer_all(|input, file| {
        let count = number(input)?;
        let passed = (0..count)
            .map(|_| number(input))
            .collect::<Result<Vec<u32>, _>>()?;
        Ok(attributes(&read_library(file), &passed))
    })
}

/// The traces of many files, as plain text one after the other.
pub fn trace() -> Result<(), String> {
    let mut input = BufReader::new(io::stdin().lock());
    let mut output = BufWriter::new(io::stdout().lock());
    while let Some(file) = read_frame(&mut input)? {
        let text = trace_of(&read_library(&file));
        output.write_all(text.as_bytes()).map_err(output_failed)?;
    }
    output.flush().map_err(output_failed)
}

fn number(input: &mut impl Read) -> Result<u32, String> {
    read_u32(input)?.ok_or_else(|| "the input ends before the passed counts".to_owned())
}

type Input = BufReader<io::StdinLock<'static>>;

/// Answers each request at once, since the other side may wait for it.
fn answer_all(answer: impl Fn(&mut Input, &[u8]) -> Result<String, String>) -> Result<(), String> {
    let mut input = BufReader::new(io::stdin().lock());
    let mut output = BufWriter::new(io::stdout().lock());
    while let Some(file) = read_frame(&mut input)? {
        let text = answer(&mut input, &file)?;
        write_frame(&mut output, text.as_bytes())?;
        output.flush().map_err(output_failed)?;
    }
    Ok(())
}
