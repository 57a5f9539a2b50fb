//! The command `show`: a show file is checked, asked and drawn from a shell.
//!
//! Every answer and every refusal is the library's. What is worked out here is words: `explain`
//! says what is wrong at the place of a refusal, `links` sets the labels to the links, `waits` the waits
//! to the labels, and `picture` draws.

pub mod args;
pub mod ask;
pub mod blocks;
pub mod commands;
pub mod explain;
pub mod help;
pub mod input;
pub mod links;
pub mod picture;
pub mod problem;
pub mod waits;
pub mod way;
pub mod words;

use std::ffi::OsString;
use std::io::{self, BufWriter, Write};
use std::process::ExitCode;

use args::Asked;
use input::Input;
use problem::Problem;

/// Does what the words of a command line ask for, and gives the exit status.
pub fn run(words: impl Iterator<Item = OsString>) -> ExitCode {
    match args::parse(words).and_then(done) {
        Ok(()) => ExitCode::SUCCESS,
        Err(problem) => problem.told(),
    }
}

/// Writes the answer to standard output.
fn done(asked: Asked) -> Result<(), Problem> {
    let mut out = BufWriter::new(io::stdout().lock());
    match asked {
        Asked::Text(text) => out.write_all(text.as_bytes())?,
        Asked::Of { file, way, question } => {
            ask::of_input(&Input::read(&file)?, way, &question, &mut out)?
        }
    }
    Ok(out.flush()?)
}
