//! Numbers and words as they are said.

use std::ffi::OsStr;
use std::fmt::{Display, Formatter, Result};

/// A number with commas between its thousands.
#[derive(Clone, Copy, Debug, PartialEq, Eq)]
pub struct Grouped(pub u64);

impl Display for Grouped {
    fn fmt(&self, f: &mut Formatter) -> Result {
        match self.0 / 1000 {
            0 => write!(f, "{}", self.0),
            thousands => write!(f, "{},{:03}", Grouped(thousands), self.0 % 1000),
        }
    }
}

/// So many of something.
#[derive(Clone, Copy, Debug, PartialEq, Eq)]
pub struct Many(pub u32, pub &'static str);

impl Display for Many {
    fn fmt(&self, f: &mut Formatter) -> Result {
        write!(f, "{} {}{}", self.0, self.1, if self.0 == 1 { "" } else { "s" })
    }
}

/// So many tenths of a second, as seconds.
#[derive(Clone, Copy, Debug, PartialEq, Eq)]
pub struct Seconds(pub u64);

impl Display for Seconds {
    fn fmt(&self, f: &mut Formatter) -> Result {
        write!(f, "{}.{}", self.0 / 10, self.0 % 10)
    }
}

/// So many tenths of a second, as minutes and seconds; from an hour on, with the hours before them.
#[derive(Clone, Copy, Debug, PartialEq, Eq)]
pub struct Clock(pub u64);

impl Display for Clock {
    fn fmt(&self, f: &mut Formatter) -> Result {
        let (minutes, rest) = (self.0 / 600, self.0 % 600);
        match minutes / 60 {
            0 => write!(f, "{minutes}")?,
            hours => write!(f, "{hours}:{:02}", minutes % 60)?,
        }
        write!(f, ":{:02}.{}", rest / 10, rest % 10)
    }
}

/// A word of the command line as it can be printed in a line.
pub fn shown(word: &OsStr) -> String {
    let plain = |letter: char| match letter.is_control() {
        true => letter.escape_default().to_string(),
        false => letter.to_string(),
    };
    word.to_string_lossy().chars().map(plain).collect()
}
