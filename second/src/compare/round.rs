//! Round trips: a file that is read, what was read written, and that read again. What was read behind
//! the desk's blocks is written as a whole file, and that is read as it is.

use super::checker::{Checker, Subjected};
use super::outcome::Call;
use crate::limits::{COLUMNS, GIVEN};
use crate::naive::ask::Show;
use crate::naive::file::print;
use crate::question::{Answer, Input, Question};

impl Subjected<'_, '_> {
    /// Goes the round with a file that the naive tool reads.
    pub fn ask_round(&mut self) {
        if let Ok(show) = &self.known {
            round(self.checker, &self.input, show);
        }
    }
}

/// Each step starts from what the implementation left in the one before. A failed step ends
/// the round.
fn round(checker: &mut Checker, input: &Input, show: &Show) -> Option<()> {
    let unpadded = print(&show.rows);
    let rows = read(checker, input, show)?;
    let written = write(checker, &rows, &unpadded)?;
    match input {
        Input::File(file) if !is_padded(file) => drop(write(checker, &rows, file)?),
        _ => {}
    }
    read(checker, &Input::File(written), show)?;
    Some(())
}

/// Reads a file that holds the show; gives the rows that were read.
fn read(checker: &mut Checker, input: &Input, show: &Show) -> Option<Vec<u32>> {
    let question = Question::Read { room: show.rows.len() * COLUMNS + 1 };
    let answer = show.answer(&question, GIVEN);
    let call = Call { question, given: GIVEN };
    let outcome = checker.compare(input, call, &answer)?;
    let length = outcome.given[0] as usize * COLUMNS;
    checker.failure.is_none().then(|| outcome.numbers[..length].to_vec())
}

/// Writes rows as this file; gives the bytes that were written.
fn write(checker: &mut Checker, rows: &[u32], file: &[u8]) -> Option<Vec<u8>> {
    let call = Call { question: Question::Write { room: file.len() + 1 }, given: GIVEN };
    let answer = Answer { bytes: file.to_vec(), ..Answer::given(&[file.len() as u32]) };
    let outcome = checker.compare(&Input::Rows(rows.to_vec()), call, &Ok(answer))?;
    let length = outcome.given[0] as usize;
    checker.failure.is_none().then(|| outcome.bytes[..length].to_vec())
}

/// Whether a value has a leading zero: a 0 with no digit before it and a digit behind it.
pub fn is_padded(file: &[u8]) -> bool {
    file.windows(3)
        .any(|bytes| !bytes[0].is_ascii_digit() && bytes[1] == b'0' && bytes[2].is_ascii_digit())
}

#[cfg(test)]
mod tests {
    use super::is_padded;

    #[test]
    fn leading_zeros_are_seen() {
        for file in ["h\n01,1\n", "h\n1,00\n", "h\n1,2\n1,001\n", "h\n1,2\n00000,1\n"] {
            assert!(is_padded(file.as_bytes()), "{file:?}");
        }
        for file in ["", "0", "h\n0,1\n", "h\n10,0\n", "h\n100,101\n0,0\n", "h\n1,0\n"] {
            assert!(!is_padded(file.as_bytes()), "{file:?}");
        }
    }
}
