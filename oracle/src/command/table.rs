use std::{fmt, fs};

use crate::{
    board::fits,
    given::{Factors, checked_play},
    heats::Heat,
    map::{MapFile, Play},
    reader::{PLAY_RECORD, Refusal, read_library, read_program},
    recipe::{self, Kind, PLAY_BODY, Row},
};

/// What a call answers, 0 at 0 if it is not refused, and the number in each outcome that a heat writes.
#[derive(PartialEq)]
struct Answer {
    refusal: Refusal,
    written: Vec<u8>,
}

impl fmt::Display for Answer {
    fn fmt(&self, f: &mut fmt::Formatter) -> fmt::Result {
        let Refusal { number, offset } = self.refusal;
        write!(f, "{number} at {offset}")?;
        self.written
            .iter()
            .try_for_each(|number| write!(f, ":{number}"))
    }
}

pub fn rows(path: &str) -> Result<Vec<Row>, String> {
    let text = fs::read_to_string(path).map_err(|why| format!("{path}: {why}"))?;
    recipe::parse_table(&text).map_err(|why| format!("{path}: {why}"))
}

/// Compares the reader with each row that needs no board's content.
pub fn check(table: &str) -> Result<(), String> {
    let rows = rows(table)?;
    let mut text = String::new();
    let (mut agreed, mut differed, mut not_compared) = (0, 0, 0);
    for row in &rows {
        let Some(found) = answer(row) else {
            not_compared += 1;
            continue;
        };
        let due = due(row);
        if found == due {
            agreed += 1;
        } else {
            differed += 1;
            let Row { name, line, .. } = row;
            text += &format!("line {line}, {name}: the table says {due}, the reader {found}\n");
        }
    }
    text += &format!(
        "{agreed} agree, {differed} differ, {not_compared} edits and reads not compared\n"
    );
    super::write_out(text.as_bytes())?;
    if differed > 0 {
        return Err(format!("{differed} rows differ"));
    }
    Ok(())
}

/// What the table says.
fn due(row: &Row) -> Answer {
    let (number, offset) = (row.number, row.offset as usize);
    Answer {
        refusal: Refusal { number, offset },
        written: row.written.clone(),
    }
}

/// The answer that a row's call should get.
fn answer(row: &Row) -> Option<Answer> {
    let read = match row.kind {
        Kind::Program => read_program(&row.file),
        Kind::File | Kind::Build { .. } | Kind::Score { .. } | Kind::Heat { .. } => {
            read_library(&row.file)
        }
        Kind::Edit { .. } | Kind::Read { .. } => return None,
    };
    let mut written = Vec::new();
    let refusal = match read {
        Ok(map) => Refusal {
            number: number_beside(&map, row, &mut written),
            offset: 0,
        },
        Err(refusal) => refusal,
    };
    Some(Answer { refusal, written })
}

/// The number of a row's call beside an accepted file, and those that a heat writes.
fn number_beside(map: &MapFile, row: &Row, written: &mut Vec<u8>) -> u8 {
    match &row.kind {
        &Kind::Build { words, starts } if !fits(map.objects.len(), words, starts) => 11,
        Kind::Score { play, factors } => given_number(&row.file, play, factors),
        Kind::Heat { plays, outcomes } => {
            let heat = Heat {
                outcomes: *outcomes,
                plays: plays.iter().map(record).collect(),
                file: row.file.clone(),
            };
            if let Err(refusal) = heat.checked() {
                return refusal.number;
            }
            written.extend(heat.checked_plays().map(number_of));
            0
        }
        _ => 0,
    }
}

fn number_of(checked: Result<Play, u8>) -> u8 {
    checked.map_or_else(|number| number, |_| 0)
}

fn record(body: &[u8; PLAY_BODY]) -> [u8; PLAY_RECORD] {
    let mut record = [0; PLAY_RECORD];
    record[..2].copy_from_slice(b"PL");
    record[2..].copy_from_slice(body);
    record
}

/// The number of a play with factors beside an accepted file.
fn given_number(file: &[u8], play: &[u8; PLAY_BODY], factors: &[u64; 2]) -> u8 {
    let [aim, speed] = factors.map(f64::from_bits);
    number_of(checked_play(
        file,
        &record(play),
        Some(Factors { aim, speed }),
    ))
}
