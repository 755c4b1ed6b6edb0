use std::{
    env,
    io::{self, Write},
    process::ExitCode,
};

/// Exit status of every run that could not do what it was asked for.
const FAILED: u8 = 2;

fn main() -> ExitCode {
    let arguments: Vec<String> = env::args_os()
        .skip(1)
        .map(|argument| argument.to_string_lossy().into_owned())
        .collect();
    match oracle::command::run(&arguments) {
        Ok(()) => ExitCode::SUCCESS,
        Err(why) => {
            // Where even this cannot be written, the status still tells.
            let _ = writeln!(io::stderr(), "oracle: {why}");
            ExitCode::from(FAILED)
        }
    }
}
