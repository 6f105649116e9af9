//! `oracle`: the unchanged Rust as judge. Every subcommand is a thin line over
//! the driver; README.md describes them.

mod commands;
mod files;
mod judges;

use std::io::Write;
use std::process::ExitCode;

/// Deep books recurse: the work is done on a stack that is never short.
const STACK_BYTES: usize = 256 << 20;

fn main() -> ExitCode {
    let arguments: Vec<String> = std::env::args_os()
        .skip(1)
        .map(|argument| argument.to_string_lossy().into_owned())
        .collect();
    let worker = std::thread::Builder::new()
        .stack_size(STACK_BYTES)
        .spawn(move || commands::run(&arguments));
    let outcome = match worker.map(|worker| worker.join()) {
        Ok(Ok(outcome)) => outcome,
        Ok(Err(_)) => Err("the driver panicked: this is a fault of the oracle".to_string()),
        Err(error) => Err(format!("no thread to work on: {error}")),
    };
    match outcome {
        Ok(()) => ExitCode::SUCCESS,
        Err(message) => {
            let line = format!("oracle: {}\n", message.replace('\n', " "));
            // Where even this cannot be written, the exit code still tells.
            let _ = std::io::stderr().write_all(line.as_bytes());
            ExitCode::FAILURE
        }
    }
}
