//! The page of results.

use crate::{asked, cases, machine, machine::Machine, measure::Series, results::Results, table};

/// Other processes take fewer cores than this while a series runs that is kept.
const QUIET: f64 = 0.1;

/// The page in Markdown; its plot stands beside it. Other processes took that many cores while the series ran.
pub fn page(results: &Results, series: Series, machine: &Machine, taken: Option<f64>) -> String {
    format!(
        include_str!("page.md"),
        date = machine::today(),
        processor = machine.processor,
        cores = machine.cores,
        compiler = env!("COMPILER"),
        kit = env!("KIT"),
        quiet = QUIET,
        taken = others(taken),
        rounds = series.rounds,
        samples = series.samples.count(),
        few = series.few.count(),
        asked = asked::asked(results, &machine.processor),
        scores = table::scores(results),
        heat_plays = cases::HEAT_PLAYS,
        heats = table::heats(results),
        boards = table::boards(results),
        factor_reads = table::factor_reads(results),
        files = table::files(results),
        own_plays = table::own_plays(results),
        spinner_walks = table::spinner_walks(results),
        spinner_edits = table::spinner_edits(results),
        readings = table::readings(results),
        counts = table::counts(&results.counts),
        factor_counts = table::factor_counts(&results.counts),
        file_counts = table::file_counts(&results.counts),
        heat_counts = table::heat_counts(&results.counts),
    )
}

/// What a reader has to know of them.
fn others(taken: Option<f64>) -> String {
    match taken {
        Some(cores) if cores < QUIET => format!("In this one they took {cores:.2}."),
        Some(cores) => format!("In this one they took {cores:.2}: it is not one to keep."),
        None => "How much they took in this one is not known.".to_owned(),
    }
}

#[cfg(test)]
mod tests {
    use super::*;

    #[test]
    fn a_series_beside_others_is_not_kept() {
        assert_eq!(others(Some(0.02)), "In this one they took 0.02.");
        assert!(others(Some(0.1)).ends_with("they took 0.10: it is not one to keep."));
        assert!(others(None).ends_with("is not known."));
    }
}
