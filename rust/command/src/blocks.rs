//! The blocks of a show, out of its rows.

use show::{Loaded, MAX_FOLLOWED, ROW_LEN};

/// A row: block, kind, label, and the columns a to h.
pub type Row = [u32; ROW_LEN];

/// The kind of a row that opens a block.
pub const OPENING: u32 = 0;
/// The kind of a link.
pub const LINK: u32 = 1;
/// The kind of a use.
pub const USE: u32 = 2;

/// A follow-on with its label.
#[derive(Clone, Copy, Debug, PartialEq, Eq, PartialOrd, Ord)]
pub struct Link {
    /// The cue from which it leads.
    pub from: u32,
    /// The cue to which it leads.
    pub to: u32,
    /// Its label.
    pub label: u32,
}

impl Link {
    /// Whether it is a note, which no chain has.
    pub fn is_note(&self) -> bool {
        self.label > MAX_FOLLOWED
    }
}

/// A use of an earlier block.
#[derive(Clone, Debug, PartialEq, Eq)]
pub struct Use {
    /// The block that is used.
    pub block: usize,
    /// The cues that take its joins.
    pub cues: Vec<u32>,
}

/// A block.
#[derive(Clone, Debug, Default, PartialEq, Eq)]
pub struct Block {
    /// The row that opens it, from 1.
    pub row: usize,
    /// How many joins it has.
    pub joins: u32,
    /// How many own cues it has.
    pub own: u32,
    /// Its links.
    pub links: Vec<Link>,
    /// Its uses.
    pub uses: Vec<Use>,
    /// How many cues it stands for.
    pub total: u64,
}

/// The rows of a show that was read.
pub fn rows_of<'a>(show: &Loaded<'a>) -> &'a [Row] {
    show.rows.numbers().as_chunks().0
}

/// The blocks of rows that pass checks 5 to 8, with their totals. A total over the limit is right
/// in the first block that has one.
pub fn of_rows(rows: &[Row]) -> Vec<Block> {
    let mut blocks: Vec<Block> = Vec::new();
    for (row, number) in rows.iter().zip(1..) {
        if row[1] == OPENING {
            let (joins, own) = (row[2], row[3]);
            blocks.push(Block { row: number, joins, own, total: own.into(), ..Block::default() });
        } else {
            add(&mut blocks, row);
        }
    }
    blocks
}

/// Adds a link or a use to the last block.
fn add(blocks: &mut [Block], &[_, kind, label, ref columns @ ..]: &Row) {
    let Some((block, earlier)) = blocks.split_last_mut() else { return };
    if kind == LINK {
        block.links.push(Link { from: columns[0], to: columns[1], label });
    } else if let Some(used) = earlier.get(label as usize) {
        let cues = columns.iter().copied().take(used.joins as usize).collect();
        block.uses.push(Use { block: label as usize, cues });
        block.total = block.total.saturating_add(used.total);
    }
}
