//! Times our calls beside the Rust that they are ported from and beside plain Rust with the same board.
//!
//! ```text
//! bench                   prints the page of results
//! bench --write           writes it to docs/BENCHMARKS.md as well, with its plot
//! bench --quick           with a few samples, to see that all runs
//! bench count NAME SIZE   makes the calls whose instructions are counted
//! ```

mod answer;
mod asked;
mod boards;
mod cases;
mod figure;
mod heats;
mod instructions;
mod lent;
mod listing;
mod machine;
mod measure;
mod number;
mod own_plays;
mod page;
mod plain;
mod plot;
mod proved;
mod reading;
mod results;
mod scores;
mod spinners;
mod table;

use std::{env, fs, path::Path, process::ExitCode};

use machine::Machine;
use measure::Series;

fn main() -> ExitCode {
    let arguments: Vec<String> = env::args().skip(1).collect();
    let arguments: Vec<&str> = arguments.iter().map(String::as_str).collect();
    let done = match arguments[..] {
        [] => run(Series::FULL, &cases::SIZES, false),
        ["--write"] => run(Series::FULL, &cases::SIZES, true),
        ["--quick"] => run(Series::QUICK, &cases::SIZES[..1], false),
        ["count", name, size] => count(name, size),
        _ => Err("usage: bench [--write | --quick | count NAME SIZE]".to_owned()),
    };
    match done {
        Ok(()) => ExitCode::SUCCESS,
        Err(why) => {
            eprintln!("bench: {why}");
            ExitCode::FAILURE
        }
    }
}

/// Measures all, with instructions at the sizes that are named.
fn run(series: Series, counted: &[usize], is_written: bool) -> Result<(), String> {
    let machine = Machine::now();
    let results = results::measure(series, counted);
    let page = page::page(&results, series, &machine, machine.taken());
    let plot = plot::plot(&results);
    print!("{page}");
    if is_written {
        write("BENCHMARKS.md", &page)?;
        write("benchmarks.svg", &plot)?;
    }
    Ok(())
}

fn write(name: &str, text: &str) -> Result<(), String> {
    let docs = Path::new(env!("CARGO_MANIFEST_DIR")).join("../docs");
    fs::write(docs.join(name), text).map_err(|error| format!("docs/{name}: {error}"))
}

fn count(name: &str, size: &str) -> Result<(), String> {
    let is_named = |known: &&usize| known.to_string() == size;
    let size = cases::SIZES.iter().find(is_named);
    instructions::run(name, *size.ok_or("no size that is measured")?)
}
