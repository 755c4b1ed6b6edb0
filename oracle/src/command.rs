//! The modes of the program. Each gives a one-line message where it fails.

mod answers;
mod attrs;
mod bench;
mod breaks;
mod calls;
mod example;
mod generate;
mod heats;
mod list;
mod replay;
mod serve;
mod spinner;
mod table;

pub use answers::answers;
pub use example::worked_example;

use std::io::{self, Read, Write};

const HELP: &str = include_str!("command/help.txt");

pub fn run(arguments: &[String]) -> Result<(), String> {
    let arguments: Vec<&str> = arguments.iter().map(String::as_str).collect();
    match arguments.as_slice() {
        ["--help"] => write_out(HELP.as_bytes()),
        ["list"] => list::list(false),
        ["list", "--library"] => list::list(true),
        ["serve"] => serve::serve(false),
        ["serve", "--library"] => serve::serve(true),
        ["attrs", passed @ ..] => attrs::attrs(passed),
        ["serve-attrs"] => serve::serve_attrs(),
        ["trace"] => serve::trace(),
        ["spinner"] => spinner::spinner(),
        ["spinner-edges"] => spinner::edges(),
        ["spinner-files"] => spinner::files(),
        ["gen", seed, count, to] => generate::good(number(seed)?, number(count)?, to),
        ["gen-marathon", seed, count, to] => generate::marathons(number(seed)?, number(count)?, to),
        ["gen-damaged", seed, count, to] => generate::damaged(number(seed)?, number(count)?, to),
        ["gen-breaks", seed, count, "-"] => breaks::generate(number(seed)?, number(count)?),
        ["trace-breaks"] => breaks::trace(),
        ["gen-heats", seed, count, "-"] => heats::generate(number(seed)?, number(count)?),
        ["trace-heats"] => heats::trace(),
        ["gen-calls", seed, count, "-"] => calls::generate(number(seed)?, number(count)?),
        ["trace-calls"] => calls::trace(),
        ["replay-rows", table, seed, count, path] => {
            replay::write(table, number(seed)?, number(count)?, path)
        }
        ["check-refusals", table] => table::check(table),
        ["example"] => write_out(&worked_example()),
        ["bench"] => bench::bench(),
        [] => Err("no mode; see oracle --help".to_owned()),
        [mode, ..] => Err(format!(
            "no mode {mode:?} with these arguments; see oracle --help"
        )),
    }
}

fn number(text: &str) -> Result<u64, String> {
    text.parse()
        .map_err(|_| format!("not a whole number: {text:?}"))
}

fn read_input() -> Result<Vec<u8>, String> {
    let mut bytes = Vec::new();
    io::stdin()
        .lock()
        .read_to_end(&mut bytes)
        .map_err(|why| format!("standard input: {why}"))?;
    Ok(bytes)
}

fn write_out(bytes: &[u8]) -> Result<(), String> {
    let mut output = io::stdout().lock();
    output
        .write_all(bytes)
        .and_then(|()| output.flush())
        .map_err(output_failed)
}

fn output_failed(why: io::Error) -> String {
    format!("standard output: {why}")
}
