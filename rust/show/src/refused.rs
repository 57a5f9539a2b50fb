//! Refusals, by name and in words.

use core::error::Error;
use core::fmt::{Display, Formatter, Result};

/// Where a refusal is: in rows that were lent, in a file that was read, or in a wait file.
#[derive(Clone, Copy, Debug, PartialEq, Eq, Hash)]
pub enum Place {
    /// A row, from 1.
    Row(u32),
    /// A line of the file, from 1; the first is the line of names, so row r of a show file is line r + 1.
    Line(u32),
}

/// Why there is no answer. The variants are in the order of the checks and numbered so, from 1; the
/// first check that fails is said. Checks 5 to 8 go row by row: the first row that fails one decides.
#[derive(Clone, Copy, Debug, PartialEq, Eq, Hash)]
#[non_exhaustive]
pub enum Refused {
    /// 1: the file has more than 65,536 bytes.
    FileTooLong,
    /// 2: the first line of the file is not the line of names.
    BadNames,
    /// 3: this line of the file is not eleven values.
    BadLine(u32),
    /// 4: no row, more than 1,024 with those of the desk where they are read, or a length of lent numbers that is no
    /// multiple of eleven; of a file that is read with those of the desk, also no row of its own.
    BadRowCount,
    /// 5: block number or kind cannot follow here.
    CannotFollow(Place),
    /// 6: a value is out of its range, or an idle column is not 0.
    OutOfRange(Place),
    /// 7: a link or a use names a cue twice.
    NamedTwice(Place),
    /// 8: a link that does not rise, or a use that falls.
    OutOfOrder(Place),
    /// 9: the last block has joins or no own cue, or another block has no joins. The place is the
    /// block's opening.
    BadBlock(Place),
    /// 10: a block stands for more than 2,147,483,647 cues. The place is its opening.
    TooManyCues(Place),
    /// 11: a lent list is too short.
    TooShort,
    /// 12: no cue has this number.
    NoSuchCue,
    /// 13: no path of this show, or no own cue of the block at its end.
    NoSuchPath,
    /// 14: no link leads from the one cue to the other.
    NoSuchLink,
    /// 15: this line of the wait file is not two values; 1 where its first line is not the names. Of 15 to 17
    /// each is looked for in the whole file before the next, and a line from 4,294,967,295 on is told as that
    /// number.
    BadWaitLine(u32),
    /// 16: in this line of the wait file the label or the wait is out of its range.
    WaitOutOfRange(u32),
    /// 17: in this line of the wait file the label is not above that of the line before.
    WaitsOutOfOrder(u32),
    /// A refusal that this version of the crate does not know.
    Other {
        /// Its number.
        number: u32,
        /// Its place.
        place: u32,
    },
}

impl Refused {
    /// The refusal that a C function returned, which is not 0.
    pub(crate) fn of(returned: u64, at: fn(u32) -> Place) -> Refused {
        let (number, place) = ((returned >> 32) as u32, returned as u32);
        match number {
            1 => Refused::FileTooLong,
            2 => Refused::BadNames,
            3 => Refused::BadLine(place),
            4 => Refused::BadRowCount,
            5 => Refused::CannotFollow(at(place)),
            6 => Refused::OutOfRange(at(place)),
            7 => Refused::NamedTwice(at(place)),
            8 => Refused::OutOfOrder(at(place)),
            9 => Refused::BadBlock(at(place)),
            10 => Refused::TooManyCues(at(place)),
            11 => Refused::TooShort,
            12 => Refused::NoSuchCue,
            13 => Refused::NoSuchPath,
            14 => Refused::NoSuchLink,
            15 => Refused::BadWaitLine(place),
            16 => Refused::WaitOutOfRange(place),
            17 => Refused::WaitsOutOfOrder(place),
            _ => Refused::Other { number, place },
        }
    }

    /// The number of the refusal, as the C functions return it.
    pub const fn number(&self) -> u32 {
        match *self {
            Refused::FileTooLong => 1,
            Refused::BadNames => 2,
            Refused::BadLine(_) => 3,
            Refused::BadRowCount => 4,
            Refused::CannotFollow(_) => 5,
            Refused::OutOfRange(_) => 6,
            Refused::NamedTwice(_) => 7,
            Refused::OutOfOrder(_) => 8,
            Refused::BadBlock(_) => 9,
            Refused::TooManyCues(_) => 10,
            Refused::TooShort => 11,
            Refused::NoSuchCue => 12,
            Refused::NoSuchPath => 13,
            Refused::NoSuchLink => 14,
            Refused::BadWaitLine(_) => 15,
            Refused::WaitOutOfRange(_) => 16,
            Refused::WaitsOutOfOrder(_) => 17,
            Refused::Other { number, .. } => number,
        }
    }

    /// The row or the line, for refusals that have one. The line of refusals 15 to 17 is one of the wait file.
    pub const fn place(&self) -> Option<Place> {
        match *self {
            Refused::BadNames => Some(Place::Line(1)),
            Refused::BadLine(line)
            | Refused::BadWaitLine(line)
            | Refused::WaitOutOfRange(line)
            | Refused::WaitsOutOfOrder(line) => Some(Place::Line(line)),
            Refused::CannotFollow(place)
            | Refused::OutOfRange(place)
            | Refused::NamedTwice(place)
            | Refused::OutOfOrder(place)
            | Refused::BadBlock(place)
            | Refused::TooManyCues(place) => Some(place),
            _ => None,
        }
    }

    /// The refusal in words, without its place.
    pub const fn text(&self) -> &'static str {
        match *self {
            Refused::FileTooLong => "the file has more than 65,536 bytes",
            Refused::BadNames => "the first line is not block,kind,label,a,b,c,d,e,f,g,h",
            Refused::BadLine(_) => "the line is not eleven values",
            Refused::BadRowCount => {
                "there is no row, there are more than 1,024, or the last one is not whole"
            }
            Refused::CannotFollow(_) => "the block number or the kind cannot follow here",
            Refused::OutOfRange(_) => "a value is out of its range, or an idle column is not 0",
            Refused::NamedTwice(_) => "a link or a use names a cue twice",
            Refused::OutOfOrder(_) => "links or uses are not in order",
            Refused::BadBlock(_) => {
                "the last block has joins or no own cue, or another block has no joins"
            }
            Refused::TooManyCues(_) => "the block stands for more than 2,147,483,647 cues",
            Refused::TooShort => "a lent list is too short",
            Refused::NoSuchCue => "the show has no cue of this number",
            Refused::NoSuchPath => "no copy has this path, or its block has no such own cue",
            Refused::NoSuchLink => "no link leads from the one cue to the other",
            Refused::BadWaitLine(_) => {
                "the line of the wait file is not two values, or the first is not label,wait"
            }
            Refused::WaitOutOfRange(_) => "a label or a wait of the wait file is out of its range",
            Refused::WaitsOutOfOrder(_) => "the labels of the wait file do not rise",
            Refused::Other { .. } => "an unknown refusal",
        }
    }
}

impl Display for Place {
    fn fmt(&self, f: &mut Formatter) -> Result {
        match self {
            Place::Row(row) => write!(f, "row {row}"),
            Place::Line(line) => write!(f, "line {line}"),
        }
    }
}

impl Display for Refused {
    fn fmt(&self, f: &mut Formatter) -> Result {
        if let Some(place) = self.place() {
            write!(f, "{place}: ")?;
        }
        f.write_str(self.text())
    }
}

impl Error for Refused {}
