//! Compares the rows of the desk in the library's source with those that a program prints and with those
//! of the naive tool.
//!
//! `table SOURCE [PRINTED]`: the printed file, or else standard input. Exit status: 0 where all are the
//! same, 1 with the first row that differs, 2 for wrong use or a file that cannot be read.

use std::io::{stdin, Read};
use std::process::ExitCode;

use second::compare::table::difference;

/// The source and the printed file that the words name.
fn files(words: &[String]) -> Result<(String, Vec<u8>), String> {
    let [source, rest @ ..] = words else {
        return Err("usage: table SOURCE [PRINTED]".to_string());
    };
    let failed = |name: &str, error| format!("{name}: {error}");
    let text = std::fs::read_to_string(source).map_err(|error| failed(source, error))?;
    let printed = match rest {
        [] => read_all().map_err(|error| failed("standard input", error)),
        [name] => std::fs::read(name).map_err(|error| failed(name, error)),
        _ => Err("usage: table SOURCE [PRINTED]".to_string()),
    };
    Ok((text, printed?))
}

fn read_all() -> std::io::Result<Vec<u8>> {
    let mut bytes = Vec::new();
    stdin().read_to_end(&mut bytes)?;
    Ok(bytes)
}

fn main() -> ExitCode {
    let words: Vec<String> = std::env::args().skip(1).collect();
    let (source, printed) = match files(&words) {
        Ok(files) => files,
        Err(problem) => {
            eprintln!("table: {problem}");
            return ExitCode::from(2);
        }
    };
    match difference(&source, &printed) {
        None => ExitCode::SUCCESS,
        Some(said) => {
            println!("{said}");
            ExitCode::FAILURE
        }
    }
}
