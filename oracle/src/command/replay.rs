use std::fs;

use super::{answers::answers, table::rows};
use crate::{
    frame::write_frame,
    listing::{listing, refusal_line},
    reader::{Refusal, read_library},
    recipe::{Kind, Row},
};

/// Writes the input of the replay program: the table's rows for a listing, then accepted files
/// with the original's listings. A row is its kind (0 program, 1 file, 2 accepted file), a frame
/// with the text that is due, and a frame with the file. All texts are whole listings.
pub fn write(table: &str, seed: u64, count: u64, path: &str) -> Result<(), String> {
    let mut out = Vec::new();
    let mut refusals = 0;
    for row in rows(table)? {
        let kind = match row.kind {
            Kind::Program => 0,
            Kind::File => 1,
            Kind::Build { .. }
            | Kind::Edit { .. }
            | Kind::Read { .. }
            | Kind::Score { .. }
            | Kind::Heat { .. } => continue,
        };
        put_row(&mut out, kind, &due_text(&row), &row.file)?;
        refusals += 1;
    }
    for (file, listing) in answers(seed, count)? {
        put_row(&mut out, 2, &listing, &file)?;
    }
    fs::write(path, &out).map_err(|why| format!("{path}: {why}"))?;
    let report = format!("{refusals} rows of the table, {count} files\n");
    super::write_out(report.as_bytes())
}

/// What the table says of a listing; where it has no number, the original's.
fn due_text(row: &Row) -> String {
    if row.number == 0 {
        return listing(&read_library(&row.file));
    }
    refusal_line(&Refusal {
        number: row.number,
        offset: row.offset as usize,
    })
}

fn put_row(out: &mut Vec<u8>, kind: u8, due: &str, file: &[u8]) -> Result<(), String> {
    out.push(kind);
    write_frame(out, due.as_bytes())?;
    write_frame(out, file)
}
