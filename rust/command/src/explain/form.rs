//! The kinds of files that are explained: their names, and what their lines are called.

use show::ROW_LEN;

use super::{Column, NAMES};

/// The names of the columns of a wait file, as they stand in its first line.
pub const WAIT_NAMES: &str = "label,wait";

/// A kind of file.
#[derive(Clone, Copy, Debug, PartialEq, Eq)]
pub enum Form {
    /// A show file.
    Show,
    /// A wait file.
    Waits,
}

impl Form {
    /// Its line of names, without the line feed.
    pub fn names(self) -> &'static str {
        match self {
            Form::Show => NAMES,
            Form::Waits => WAIT_NAMES,
        }
    }

    /// The name of a column.
    pub fn column(self, column: Column) -> &'static str {
        self.names().split(',').nth(column.0).unwrap_or_default()
    }

    /// How many values a line has.
    pub fn values(self) -> usize {
        match self {
            Form::Show => ROW_LEN,
            Form::Waits => 2,
        }
    }

    /// The same in a word.
    pub fn many(self) -> &'static str {
        match self {
            Form::Show => "eleven",
            Form::Waits => "two",
        }
    }

    /// What the file is called.
    pub fn file(self) -> &'static str {
        match self {
            Form::Show => "a show file",
            Form::Waits => "a wait file",
        }
    }

    /// What a line behind the names is called.
    pub fn line(self) -> &'static str {
        match self {
            Form::Show => "row",
            Form::Waits => "line",
        }
    }

    /// What a line behind the names is.
    pub fn is(self) -> &'static str {
        match self {
            Form::Show => "a row",
            Form::Waits => "a label and its wait",
        }
    }

    /// How many values such a line has.
    pub fn has(self) -> &'static str {
        match self {
            Form::Show => "a row has eleven",
            Form::Waits => "a line of a wait file has two",
        }
    }
}
