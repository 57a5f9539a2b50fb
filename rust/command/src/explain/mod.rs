//! What is wrong at the place of a refusal, in words.
//!
//! The library decides: it says whether there is a refusal, its number and its line. What is here
//! only explains it. [`found`], and for a wait file [`waits_found`], reads the text of the file by the
//! same rules up to the first thing that is wrong, and says which column that is and why. If that were
//! not what the library refuses, the library's own words would be said in its place; the tests see to
//! it that this never happens.

mod blocks;
mod cause;
mod form;
mod names;
mod question;
mod rows;
mod text;
mod waits;

use std::fmt::{Display, Formatter};

use show::{Place, Refused};

use crate::blocks::Row;
use crate::way::Way;

pub use cause::Cause;
pub use form::{Form, WAIT_NAMES};

/// The names of the columns of a show file, as they stand in its first line.
pub const NAMES: &str = "block,kind,label,a,b,c,d,e,f,g,h";

/// A column of a row, or of a line of a wait file, by its place from 0.
#[derive(Clone, Copy, Debug, PartialEq, Eq, PartialOrd, Ord)]
pub struct Column(pub usize);

impl Column {
    const BLOCK: Column = Column(0);
    const KIND: Column = Column(1);
    const LABEL: Column = Column(2);
    const A: Column = Column(3);
    const B: Column = Column(4);

    /// Its value in a row.
    fn of(self, row: &Row) -> u32 {
        row[self.0]
    }
}

/// Its name in a show file.
impl Display for Column {
    fn fmt(&self, f: &mut Formatter) -> std::fmt::Result {
        f.write_str(Form::Show.column(*self))
    }
}

/// What is wrong in a row, and in which of its columns, where it is one of them.
type Fault = (Option<Column>, Cause);

/// An explained refusal.
#[derive(Clone, Debug, PartialEq, Eq)]
pub struct Explained {
    /// The kind of file that the line is of.
    pub form: Form,
    /// Its number.
    pub number: u32,
    /// The line of the file, where it has one.
    pub line: Option<u32>,
    /// The column, where one is wrong.
    pub column: Option<Column>,
    /// What is wrong; its text is the sentence.
    pub cause: Cause,
}

impl Explained {
    /// A fault in a line.
    fn at(line: usize, (column, cause): Fault) -> Explained {
        let line = u32::try_from(line).unwrap_or(u32::MAX);
        Explained { line: Some(line), column, ..Explained::of(cause) }
    }

    /// A fault that is in no line.
    fn of(cause: Cause) -> Explained {
        Explained { form: Form::Show, number: cause.number(), line: None, column: None, cause }
    }

    /// A refusal in the words of the library.
    fn in_words(refused: Refused) -> Explained {
        let (number, line) = (refused.number(), line_of(refused));
        Explained {
            form: Form::Show,
            number,
            line,
            column: None,
            cause: Cause::Unexplained { words: refused.text() },
        }
    }
}

impl Display for Explained {
    fn fmt(&self, f: &mut Formatter) -> std::fmt::Result {
        if let Some(line) = self.line {
            write!(f, "line {line}")?;
            if let Some(column) = self.column {
                write!(f, ", {}", self.form.column(column))?;
            }
            write!(f, ": ")?;
        }
        write!(f, "{} (refusal {})", self.cause, self.number)
    }
}

/// Explains the refusal of a file that is read so. Its size is known for files that are not read whole.
pub fn file(file: &[u8], size: Option<u64>, way: Way, refused: Refused) -> Explained {
    agreed(found(file, size, way), refused)
}

/// Explains the refusal of a question about these cues of a show that has so many.
pub fn cues(refused: Refused, cues: &[u32], count: u32) -> Explained {
    agreed(question::cue(cues, count), refused)
}

/// Explains the refusal of a question about a link between two cues of a show that has so many.
/// `back` says whether a link leads the other way.
pub fn link(refused: Refused, s: u32, t: u32, count: u32, back: bool) -> Explained {
    let found = question::cue(&[s, t], count).unwrap_or_else(|| question::link(s, t, back));
    agreed(Some(found), refused)
}

/// Explains the refusal of a question about a path and an own cue.
pub fn path(refused: Refused, rows: &[Row], path: &[u32], own: u32) -> Explained {
    agreed(question::path(rows, path, own), refused)
}

/// Explains the refusal of a wait file.
pub fn waits(file: &[u8], refused: Refused) -> Explained {
    agreed(waits_found(file), refused)
}

/// What is wrong first in a wait file; nothing where it is one.
pub fn waits_found(file: &[u8]) -> Option<Explained> {
    waits::found(file)
}

/// What is wrong first in the text of a file that is read so; nothing where it is a show file.
pub fn found(file: &[u8], size: Option<u64>, way: Way) -> Option<Explained> {
    match text::rows(file, size) {
        Err(explained) => Some(explained),
        Ok(rows) => rows::checked(&rows, way).or_else(|| blocks::checked(&rows, way)),
    }
}

/// What was found, if it is what the library refuses.
fn agreed(found: Option<Explained>, refused: Refused) -> Explained {
    found
        .filter(|found| found.number == refused.number() && found.line == line_of(refused))
        .unwrap_or_else(|| Explained::in_words(refused))
}

fn line_of(refused: Refused) -> Option<u32> {
    refused.place().map(|place| match place {
        Place::Line(line) => line,
        Place::Row(row) => row + 1,
    })
}
