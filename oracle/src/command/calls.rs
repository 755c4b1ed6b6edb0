use std::{
    collections::BTreeMap,
    io::{self, BufReader, BufWriter, Write},
};

use super::output_failed;
use crate::{
    calls::{Call, List},
    encode::{encode, play_record},
    frame::{read_frame, write_frame},
    generate::{calls::list, marathon},
    given::checked_play,
    map::{MapFile, Play},
    values::Original,
};

/// Lists of calls, with the counts of what they call.
pub fn generate(seed: u64, count: u64) -> Result<(), String> {
    let mut output = BufWriter::new(io::stdout().lock());
    let mut counts = BTreeMap::<&str, u64>::new();
    let mut list_so_far = List::default();
    for call in (0..count).flat_map(|index| list(seed, index)) {
        *counts.entry(name(&call)).or_default() += 1;
        for label in estimates(&mut list_so_far, &call)? {
            *counts.entry(label).or_default() += 1;
        }
        write_frame(&mut output, &call.encode())?;
    }
    output.flush().map_err(output_failed)?;
    let lines: String = counts
        .iter()
        .map(|(name, n)| format!("{name}: {n}\n"))
        .collect();
    let written = io::stderr().write_all(lines.as_bytes());
    written.map_err(|why| format!("standard error: {why}"))
}

/// What is counted of the call's estimate, if it is a read of the map as it then is.
fn estimates(list: &mut List, call: &Call) -> Result<&'static [&'static str], String> {
    match call {
        Call::Build { .. } | Call::Edit { .. } => {
            list.answer(call)?;
        }
        Call::Read {
            is_own: true, play, ..
        } => {
            if let Some(map) = list.map().filter(|map| marathon::is_marathon(map)) {
                return Ok(estimates_of(map, play));
            }
        }
        Call::Read { .. } | Call::Board => {}
    }
    Ok(&[])
}

fn estimates_of(map: &MapFile, play: &Play) -> &'static [&'static str] {
    if checked_play(&encode(map), &play_record(play), None).is_err() {
        return &[];
    }
    let attributes = Original::new(map).attributes(play.passed.into());
    marathon::labels(&attributes, play)
}

fn name(call: &Call) -> &'static str {
    match call {
        Call::Build { .. } => "builds",
        Call::Edit { .. } => "edits",
        Call::Read { is_own: false, .. } => "other reads",
        Call::Read { factors: None, .. } => "reads",
        Call::Read { .. } => "reads with factors",
        Call::Board => "boards",
    }
}

/// The answers to a stream of calls, as plain text one after the other.
pub fn trace() -> Result<(), String> {
    let mut input = BufReader::new(io::stdin().lock());
    let mut output = BufWriter::new(io::stdout().lock());
    let mut list = List::default();
    for index in 0_u64.. {
        let Some(frame) = read_frame(&mut input)? else {
            break;
        };
        let at_call = |why: &str| format!("call {index} of the stream: {why}");
        let call = Call::decode(&frame).ok_or_else(|| at_call("not a call"))?;
        let text = list.answer(&call).map_err(|why| at_call(&why))?;
        output.write_all(text.as_bytes()).map_err(output_failed)?;
    }
    output.flush().map_err(output_failed)
}
