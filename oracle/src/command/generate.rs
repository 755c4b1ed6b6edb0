use std::{
    collections::BTreeMap,
    fs,
    io::{self, BufWriter, Write},
    path::PathBuf,
};

use super::output_failed;
use crate::{
    encode::encode,
    frame::write_frame,
    generate::{damage::damaged_file, map_file, marathon_file, report::Report},
    map::MapFile,
    reader::{PROGRAM_LIMIT, read_library},
};

/// Where files go: to a folder, or as frames to standard output.
enum Target {
    Folder(PathBuf),
    Stream(BufWriter<io::StdoutLock<'static>>),
}

impl Target {
    fn new(to: &str) -> Result<Self, String> {
        if to == "-" {
            return Ok(Self::Stream(BufWriter::new(io::stdout().lock())));
        }
        fs::create_dir_all(to).map_err(|why| format!("{to}: {why}"))?;
        Ok(Self::Folder(to.into()))
    }

    fn put(&mut self, index: u64, bytes: &[u8]) -> Result<(), String> {
        match self {
            Self::Folder(folder) => {
                let path = folder.join(format!("{index:06}.map"));
                fs::write(&path, bytes).map_err(|why| format!("{}: {why}", path.display()))
            }
            Self::Stream(output) => write_frame(output, bytes),
        }
    }

    /// The report goes beside the stream, never into it.
    fn finish(self, report: &str) -> Result<(), String> {
        match self {
            Self::Folder(_) => super::write_out(report.as_bytes()),
            Self::Stream(mut output) => {
                output.flush().map_err(output_failed)?;
                let written = io::stderr().write_all(report.as_bytes());
                written.map_err(|why| format!("standard error: {why}"))
            }
        }
    }
}

/// Files that are accepted, with a report.
pub fn good(seed: u64, count: u64, to: &str) -> Result<(), String> {
    accepted(map_file, seed, count, to)
}

/// Files of much combo, with the same report.
pub fn marathons(seed: u64, count: u64, to: &str) -> Result<(), String> {
    accepted(marathon_file, seed, count, to)
}

fn accepted(file: fn(u64, u64) -> MapFile, seed: u64, count: u64, to: &str) -> Result<(), String> {
    let mut target = Target::new(to)?;
    let mut report = Report::default();
    for index in 0..count {
        let map = file(seed, index);
        let bytes = encode(&map);
        if let Err(refusal) = read_library(&bytes) {
            return Err(format!(
                "file {index} of seed {seed} is refused: {refusal:?}"
            ));
        }
        report.add(&map, bytes.len());
        target.put(index, &bytes)?;
    }
    target.finish(&report.to_string())
}

/// Damaged files, with the counts of damages and of the reader's answers.
pub fn damaged(seed: u64, count: u64, to: &str) -> Result<(), String> {
    let mut target = Target::new(to)?;
    let mut counts = BTreeMap::<String, u64>::new();
    for index in 0..count {
        let (bytes, name) = damaged_file(seed, index);
        let answer = match read_library(&bytes) {
            Ok(_) => "accepted".to_owned(),
            Err(refusal) => format!("refused {:2}", refusal.number),
        };
        *counts.entry(format!("damage, {name}")).or_default() += 1;
        *counts.entry(answer).or_default() += 1;
        if bytes.len() > PROGRAM_LIMIT {
            *counts.entry("above 65,536 bytes".to_owned()).or_default() += 1;
        }
        target.put(index, &bytes)?;
    }
    let lines: String = counts
        .iter()
        .map(|(label, n)| format!("{label}: {n}\n"))
        .collect();
    target.finish(&format!("files: {count}\n{lines}"))
}
