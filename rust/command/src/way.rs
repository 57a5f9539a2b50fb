//! The two ways to read a file.

use show::{Loaded, Refused, Rows, DESK_ROWS, MAX_ROWS, ROWS_LEN};

use crate::blocks::{rows_of, Row};
use crate::explain::NAMES;

/// A way to read a file.
#[derive(Clone, Copy, Debug, PartialEq, Eq)]
pub enum Way {
    /// As it is.
    Alone,
    /// Behind the blocks that come with the desk.
    Desk,
}

impl Way {
    /// Reads a file to rows.
    pub fn read<'a>(self, file: &[u8], room: &'a mut [u32]) -> Result<Loaded<'a>, Refused> {
        match self {
            Way::Alone => Rows::read(file, room),
            Way::Desk => Rows::read_desk(file, room),
        }
    }

    /// How many rows stand before those of the file.
    pub fn before(self) -> usize {
        match self {
            Way::Alone => 0,
            Way::Desk => DESK_ROWS,
        }
    }

    /// How many rows a file may have.
    pub fn most_rows(self) -> usize {
        MAX_ROWS - self.before()
    }

    /// The line of a row, which is counted from 1 among all; none for a row that comes with the desk.
    pub fn line(self, row: usize) -> Option<usize> {
        row.checked_sub(self.before()).filter(|own| *own > 0).map(|own| own + 1)
    }

    /// The rows that stand before those of the file, as the library has them: a file of one cue is read.
    pub fn rows_before(self) -> Vec<Row> {
        let Way::Desk = self else { return Vec::new() };
        let file = format!("{NAMES}\n{},0,0,1,0,0,0,0,0,0,0\n", show::DESK_BLOCKS);
        let mut room = vec![0; ROWS_LEN];
        let read = Rows::read_desk(file.as_bytes(), &mut room);
        read.map_or(Vec::new(), |read| rows_of(&read)[..DESK_ROWS].to_vec())
    }
}
