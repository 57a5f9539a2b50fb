//! Prints the file of a known show: `shown ring|knot|millions`.

use std::io::{stdout, Write};
use std::process::ExitCode;

use second::gen::known;
use second::naive::file::print;

fn main() -> ExitCode {
    let rows = match std::env::args().nth(1).as_deref() {
        Some("ring") => known::ring(),
        Some("knot") => known::knot(),
        Some("millions") => known::millions(),
        _ => {
            eprintln!("usage: shown ring|knot|millions");
            return ExitCode::FAILURE;
        }
    };
    match stdout().write_all(&print(rows.as_chunks().0)) {
        Ok(()) => ExitCode::SUCCESS,
        Err(_) => ExitCode::FAILURE,
    }
}
