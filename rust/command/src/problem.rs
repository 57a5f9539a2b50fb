//! Why there is no answer: the words for standard error, and the exit status.

use std::fmt::{Display, Formatter};
use std::io::{self, ErrorKind, Write};
use std::process::ExitCode;

/// Exit status of a refusal.
const REFUSED: u8 = 1;
/// Exit status of wrong use, and of a file that cannot be read, written or drawn.
const FAILED: u8 = 2;

/// Why there is no answer.
#[derive(Debug)]
pub enum Problem {
    /// Wrong use: what is wrong, and how it is done.
    Use {
        /// What is wrong.
        said: String,
        /// The usage line.
        usage: String,
    },
    /// The library refuses the file or the question.
    Refused {
        /// The name of the file.
        name: String,
        /// The refusal in words.
        said: String,
    },
    /// The file cannot be read, or its picture not be drawn.
    Failed {
        /// The name of the file.
        name: String,
        /// Why.
        said: String,
    },
    /// Standard output cannot be written.
    Unwritten(io::Error),
}

impl Problem {
    /// Says it on standard error, and gives the exit status.
    ///
    /// Whoever reads standard output may stop when it has seen enough: that is no failure.
    pub fn told(&self) -> ExitCode {
        if matches!(self, Problem::Unwritten(error) if error.kind() == ErrorKind::BrokenPipe) {
            return ExitCode::SUCCESS;
        }
        // Where standard error cannot be written either, the exit status says it.
        let _ = writeln!(io::stderr(), "show: {self}");
        ExitCode::from(if matches!(self, Problem::Refused { .. }) { REFUSED } else { FAILED })
    }
}

impl Display for Problem {
    fn fmt(&self, f: &mut Formatter) -> std::fmt::Result {
        match self {
            Problem::Use { said, usage } => write!(f, "{said}\nusage: {usage}"),
            Problem::Refused { name, said } | Problem::Failed { name, said } => {
                write!(f, "{name}: {said}")
            }
            Problem::Unwritten(error) => write!(f, "standard output: {error}"),
        }
    }
}

/// Only standard output is written, and what is read says its own errors.
impl From<io::Error> for Problem {
    fn from(error: io::Error) -> Problem {
        Problem::Unwritten(error)
    }
}
