//! The results as Markdown tables.

use crate::{
    boards::{BoardTimes, FactorTimes, Pair},
    cases::HEAT_PLAYS,
    heats::HeatTimes,
    instructions::Counts,
    number::{significant, time, whole},
    own_plays::OwnTimes,
    reading::ReadingTimes,
    results::{Results, Row},
    scores::ScoreTimes,
    spinners::{EditTimes, WalkTimes},
};

/// A table whose numbers stand to the right; the first columns, as many as are said, hold words.
pub fn markdown(words: usize, head: &[&str], rows: Vec<Vec<String>>) -> String {
    let rules = (0..head.len()).map(|column| if column < words { "---" } else { "---:" });
    let mut text = line(head) + &line(&rules.collect::<Vec<_>>());
    for row in rows {
        assert_eq!(row.len(), head.len(), "a row as long as the table's head");
        text += &line(&row);
    }
    text
}

fn line<T: AsRef<str>>(cells: &[T]) -> String {
    let cells: Vec<&str> = cells.iter().map(AsRef::as_ref).collect();
    format!("| {} |\n", cells.join(" | "))
}

pub fn scores(results: &Results) -> String {
    let row = |row: Row<ScoreTimes>| {
        vec![
            whole(row.any().size as u64),
            whole(row.any().files as u64),
            whole(row.any().bytes as u64),
            time(row.median(|times| times.ours)),
            time(row.median(|times| times.rust)),
            significant(row.median(|times| times.ours / times.rust)),
            time(row.median(|times| times.ours / times.size as f64)),
        ]
    };
    let one = results.rows(|round| &round.scores);
    let different = results.rows(|round| &round.different);
    markdown(
        0,
        &[
            "objects",
            "files",
            "bytes",
            "ours",
            "the Rust",
            "ours / the Rust",
            "ours, an object",
        ],
        one.into_iter().chain(different).map(row).collect(),
    )
}

pub fn heats(results: &Results) -> String {
    let row = |row: Row<HeatTimes>| {
        vec![
            row.any().name.to_owned(),
            whole(row.any().size as u64),
            whole(row.any().files as u64),
            time(row.median(|times| times.heat)),
            time(row.median(|times| times.calls)),
            significant(row.median(|times| times.calls / times.heat)),
            time(row.median(|times| times.call)),
            significant(row.median(|times| times.heat / times.call)),
        ]
    };
    markdown(
        1,
        &[
            "each play passed",
            "objects",
            "files",
            "the heat",
            &format!("{HEAT_PLAYS} calls"),
            "calls / heat",
            "one call",
            "heat / one call",
        ],
        rows(results.rows(|round| &round.heats), row),
    )
}

/// A call of the board's, and where its times stand.
type BoardCall = (&'static str, fn(&BoardTimes) -> Pair);

const BOARD_CALLS: [BoardCall; 5] = [
    ("build", |row| row.build),
    ("edit", |row| row.edit),
    ("read, all passed", |row| row.read_all),
    ("read, spread", |row| row.read_spread),
    ("read, nearly all passed", |row| row.read_nearly),
];

pub fn boards(results: &Results) -> String {
    let row = |(name, pair): BoardCall, row: &Row<BoardTimes>| {
        let ratio = |Pair { ours, plain }| ours / plain;
        vec![
            name.to_owned(),
            whole(row.any().size as u64),
            time(row.median(|times| pair(times).ours)),
            time(row.median(|times| pair(times).plain)),
            significant(row.median(|times| ratio(pair(times)))),
            time(row.median(|times| times.walk)),
            significant(row.median(|times| times.walk / pair(times).ours)),
        ]
    };
    let sizes = &results.rows(|round| &round.boards);
    let call = |call: BoardCall| sizes.iter().map(move |size| row(call, size));
    markdown(
        1,
        &[
            "call",
            "objects",
            "ours",
            "plain Rust",
            "ours / plain",
            "the Rust's walk",
            "walk / ours",
        ],
        BOARD_CALLS.into_iter().flat_map(call).collect(),
    )
}

/// A kind of reads with factors, and where its times stand.
type FactorRead = (&'static str, fn(&BoardTimes) -> FactorTimes);

const FACTOR_READS: [FactorRead; 2] = [
    ("all passed", |row| row.factors_all),
    ("spread", |row| row.factors_spread),
];

pub fn factor_reads(results: &Results) -> String {
    let row = |(name, reads): FactorRead, row: &Row<BoardTimes>| {
        let median = |value: fn(FactorTimes) -> f64| row.median(|times| value(reads(times)));
        vec![
            name.to_owned(),
            whole(row.any().size as u64),
            time(median(|reads| reads.alone.ours)),
            time(median(|reads| reads.with.ours)),
            significant(median(|reads| reads.with.ours / reads.alone.ours)),
            time(median(|reads| reads.alone.plain)),
            time(median(|reads| reads.with.plain)),
            significant(median(|reads| reads.with.plain / reads.alone.plain)),
        ]
    };
    let sizes = &results.rows(|round| &round.boards);
    let kind = |kind: FactorRead| sizes.iter().map(move |size| row(kind, size));
    markdown(
        1,
        &[
            "read",
            "objects",
            "ours",
            "with factors",
            "with / without",
            "plain Rust",
            "with factors",
            "with / without",
        ],
        FACTOR_READS.into_iter().flat_map(kind).collect(),
    )
}

pub fn files(results: &Results) -> String {
    let row = |row: Row<BoardTimes>| {
        vec![
            whole(row.any().size as u64),
            time(row.median(|times| times.score_map)),
            time(row.median(|times| times.read_map)),
            significant(row.median(|times| times.read_map / times.score_map)),
            time(row.median(|times| times.build.ours)),
        ]
    };
    markdown(
        0,
        &[
            "objects",
            "`pjp_score_map`",
            "`pjp_read_map`",
            "`read_map` / `score_map`",
            "`pjp_build`",
        ],
        rows(results.rows(|round| &round.boards), row),
    )
}

pub fn own_plays(results: &Results) -> String {
    let row = |row: Row<OwnTimes>| {
        vec![
            row.any().name.to_owned(),
            whole(row.any().objects as u64),
            whole(row.any().plays as u64),
            whole(row.any().bytes as u64),
            time(row.median(|times| times.score_map)),
            time(row.median(|times| times.build)),
            time(row.median(|times| times.score_play_at)),
            row.figure_if(|times| times.list)
                .map_or("-".to_owned(), |figure| time(figure.median())),
        ]
    };
    markdown(
        1,
        &[
            "file of",
            "objects",
            "plays",
            "bytes",
            "`pjp_score_map`",
            "`pjp_build`",
            "`pjp_score_play_at`",
            "listing",
        ],
        rows(results.rows(|round| &round.own_plays), row),
    )
}

pub fn spinner_walks(results: &Results) -> String {
    let row = |row: Row<WalkTimes>| {
        vec![
            row.any().name.to_owned(),
            whole(row.any().objects as u64),
            time(row.median(|times| times.ours.time)),
            whole(row.any().ours.half_spins),
            time(row.median(|times| times.ours.of_one())),
            time(row.median(|times| times.rust.time)),
            whole(row.any().rust.half_spins),
            time(row.median(|times| times.rust.of_one())),
        ]
    };
    markdown(
        1,
        &[
            "call",
            "objects",
            "ours",
            "half spins",
            "a half spin",
            "the Rust",
            "half spins",
            "a half spin",
        ],
        rows(results.rows(|round| &round.spinner_walks), row),
    )
}

pub fn spinner_edits(results: &Results) -> String {
    let row = |row: Row<EditTimes>| {
        vec![
            row.any().name.to_owned(),
            whole(row.any().objects as u64),
            time(row.median(|times| times.edit.ours)),
            time(row.median(|times| times.edit.plain)),
        ]
    };
    markdown(
        1,
        &["an edit that puts", "objects", "ours", "plain Rust"],
        rows(results.rows(|round| &round.spinner_edits), row),
    )
}

pub fn readings(results: &Results) -> String {
    let row = |row: Row<ReadingTimes>| {
        let speed = |value: fn(&ReadingTimes) -> f64| significant(row.median(value));
        vec![
            row.any().name.to_owned(),
            whole(row.any().objects as u64),
            whole(row.any().bytes as u64),
            speed(|times| times.speed(times.score_map)),
            speed(|times| times.speed(times.read_map)),
            speed(|times| times.speed(times.plain)),
            significant(row.median(|times| times.plain / times.score_map)),
        ]
    };
    markdown(
        1,
        &[
            "file of",
            "objects",
            "bytes",
            "`pjp_score_map`, GB/s",
            "`pjp_read_map`, GB/s",
            "plain Rust, GB/s",
            "`score_map` / plain",
        ],
        rows(results.rows(|round| &round.readings), row),
    )
}

fn rows<T>(rows: Vec<Row<T>>, row: impl Fn(Row<T>) -> Vec<String>) -> Vec<Vec<String>> {
    rows.into_iter().map(row).collect()
}

pub fn counts(counts: &Result<Vec<Counts>, String>) -> String {
    let row = |row: &Counts| {
        vec![
            whole(row.size as u64),
            significant(row.read),
            significant(row.plain_read),
            significant(row.edit),
            significant(row.plain_edit),
            significant(row.walk),
            significant(row.walk / row.read),
            significant(row.walk / row.edit),
        ]
    };
    let head = [
        "objects",
        "our read",
        "plain read",
        "our edit",
        "plain edit",
        "the Rust's walk",
        "walk / read",
        "walk / edit",
    ];
    counted(&head, counts, row)
}

pub fn factor_counts(counts: &Result<Vec<Counts>, String>) -> String {
    let row = |row: &Counts| {
        vec![
            whole(row.size as u64),
            significant(row.alone),
            significant(row.with_factors),
            significant(row.with_factors / row.alone),
        ]
    };
    let head = ["objects", "our read", "with factors", "with / without"];
    counted(&head, counts, row)
}

pub fn file_counts(counts: &Result<Vec<Counts>, String>) -> String {
    let row = |row: &Counts| {
        vec![
            whole(row.size as u64),
            significant(row.score_map),
            significant(row.score_map / row.size as f64),
        ]
    };
    let head = ["objects", "`pjp_score_map`", "an object"];
    counted(&head, counts, row)
}

pub fn heat_counts(counts: &Result<Vec<Counts>, String>) -> String {
    let row = |row: &Counts| {
        vec![
            whole(row.size as u64),
            significant(row.heat),
            significant(row.spread_heat),
            significant(row.score_play),
            significant(row.heat / row.score_play),
            significant(row.spread_heat / row.score_play),
        ]
    };
    let head = [
        "objects",
        "heat, all passed",
        "heat, spread",
        "one call",
        "all passed / one call",
        "spread / one call",
    ];
    counted(&head, counts, row)
}

/// The table of what was counted, or why nothing was.
fn counted(
    head: &[&str],
    counts: &Result<Vec<Counts>, String>,
    row: impl Fn(&Counts) -> Vec<String>,
) -> String {
    match counts {
        Ok(rows) => markdown(0, head, rows.iter().map(row).collect()),
        Err(why) => format!("Not counted: {}\n", why.trim()),
    }
}

#[cfg(test)]
mod tests {
    use super::*;

    #[test]
    fn a_table_has_a_rule_for_each_column() {
        let rows = vec![vec!["circles".to_owned(), "1".to_owned()]];
        let text = markdown(1, &["file", "n"], rows);
        assert_eq!(text, "| file | n |\n| --- | ---: |\n| circles | 1 |\n");
    }

    #[test]
    fn a_missing_counter_is_said() {
        let text = counts(&Err("valgrind does not run: not found".to_owned()));
        assert_eq!(text, "Not counted: valgrind does not run: not found\n");
    }
}
