//! The oracle: logix, patched to run one round at a time, speaking the trace
//! program's language on standard input and output; `oracle gen` writes
//! command streams.

mod command;
mod engine;
mod gen;
mod io;
mod plain;
mod primitive;
mod program;
mod tables;
#[cfg(test)]
mod tests;

use std::io::{stdin, stdout};
use std::process::ExitCode;

fn main() -> ExitCode {
    let words: Vec<String> = std::env::args().skip(1).collect();
    let done = match words.first().map(String::as_str) {
        None => program::run(stdin().lock(), stdout().lock()),
        Some("gen") => gen::run(&words[1..], stdout().lock()),
        Some(_) => gen::usage(),
    };
    match done {
        Ok(()) => ExitCode::SUCCESS,
        Err(error) => {
            eprintln!("oracle: {error}");
            ExitCode::FAILURE
        }
    }
}
