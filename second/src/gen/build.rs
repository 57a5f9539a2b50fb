//! Writes rows one after the other.

use crate::limits::{Row, DESK_BLOCKS, JOINS};

/// Rows of a show in the making.
#[derive(Clone, Debug, Default)]
pub struct Build {
    pub rows: Vec<Row>,
    opened: u32,
}

impl Build {
    /// Rows of a file that is read behind the desk's blocks: its first block has the next number.
    pub fn behind_desk() -> Build {
        Build { opened: DESK_BLOCKS as u32, ..Build::default() }
    }

    /// Opens the next block and gives its number.
    pub fn open(&mut self, joins: u32, own: u32) -> u32 {
        self.opened += 1;
        self.row(0, joins, &[own]);
        self.opened - 1
    }

    /// A link of the open block.
    pub fn link(&mut self, label: u32, from: u32, to: u32) {
        self.row(1, label, &[from, to]);
    }

    /// A use in the open block.
    pub fn take(&mut self, block: u32, cues: &[u32]) {
        self.row(2, block, cues);
    }

    /// Links with label 1 along these cues, in the order that rows need.
    pub fn chain(&mut self, cues: &[u32]) {
        let mut pairs: Vec<&[u32]> = cues.windows(2).collect();
        pairs.sort();
        for pair in pairs {
            self.link(1, pair[0], pair[1]);
        }
    }

    /// Puts the uses of the open block in the order that rows need.
    pub fn sort_uses(&mut self) {
        let block = self.opened - 1;
        let before = self.rows.partition_point(|row| row[0] < block || row[1] < 2);
        self.rows[before..].sort_by_key(|row| (row[3..].to_vec(), row[2]));
    }

    /// All rows as numbers.
    pub fn numbers(self) -> Vec<u32> {
        self.rows.concat()
    }

    fn row(&mut self, kind: u32, label: u32, columns: &[u32]) {
        let mut row = [0; 3 + JOINS];
        row[..3].copy_from_slice(&[self.opened - 1, kind, label]);
        row[3..3 + columns.len()].copy_from_slice(columns);
        self.rows.push(row);
    }
}
