//! The check of rows in one pass, and the index of blocks that it leaves.

use crate::limits::{Refusal, Row, BLOCKS, COLUMNS, JOINS, OWN, ROWS, TOTAL};

/// A block: its rows (links, then uses from `uses` to `end`) and its numbers.
#[derive(Clone, Copy, Default)]
pub struct Block {
    /// The total, or one more than the most where it is too large.
    pub total: u32,
    pub open: u32,
    pub uses: u32,
    pub end: u32,
    pub joins: u8,
    pub own: u8,
}

/// Room for the blocks of a show.
pub type Room = [Block; BLOCKS];
/// Room that holds no block yet.
pub const EMPTY: Room = [Block { total: 0, open: 0, uses: 0, end: 0, joins: 0, own: 0 }; BLOCKS];

/// Accepted rows with their blocks.
pub struct Show<'a> {
    pub rows: &'a [Row],
    pub blocks: &'a Room,
    pub count: usize,
}

/// A copy of a block: it owns the numbers from base + 1 to base + total.
#[derive(Clone, Copy)]
pub struct Copy {
    pub block: usize,
    pub base: u32,
}

/// A step down from one copy into one of its uses.
pub struct Step {
    pub row: usize,
    pub position: u32,
    pub copy: Copy,
}

impl<'a> Show<'a> {
    /// The show in these numbers, or the first of the refusals 4 to 10.
    pub fn of(numbers: &'a [u32], room: &'a mut Room) -> Result<Show<'a>, Refusal> {
        let (rows, rest) = numbers.as_chunks::<COLUMNS>();
        if rows.is_empty() || rows.len() > ROWS || !rest.is_empty() {
            return Err(Refusal { number: 4, place: 0 });
        }
        let mut pass = Pass { rows, blocks: room, count: 0 };
        let mut next = 0;
        while next < rows.len() {
            next = pass.block(next).map_err(|(number, row)| refused(number, row))?;
        }
        let (blocks, count): (&Room, usize) = (pass.blocks, pass.count);
        check_joins(&blocks[..count]).map_err(|row| refused(9, row))?;
        check_totals(&blocks[..count]).map_err(|row| refused(10, row))?;
        Ok(Show { rows, blocks, count })
    }

    /// The number of cues.
    pub fn cues(&self) -> u32 {
        self.blocks[self.count - 1].total
    }

    /// The copy that is the show itself.
    pub fn top(&self) -> Copy {
        Copy { block: self.count - 1, base: 0 }
    }

    /// The links of a block.
    pub fn links(&self, block: &Block) -> &'a [Row] {
        &self.rows[block.open as usize + 1..block.uses as usize]
    }

    /// The uses of a block.
    pub fn uses(&self, block: &Block) -> &'a [Row] {
        &self.rows[block.uses as usize..block.end as usize]
    }

    /// The block that a use names.
    pub fn used(&self, row: &Row) -> &Block {
        &self.blocks[row[2] as usize % BLOCKS]
    }

    /// The step into the use that holds n, or nothing if n is the copy's own cue.
    pub fn below(&self, copy: Copy, n: u32) -> Option<Step> {
        let block = &self.blocks[copy.block];
        let mut base = copy.base + u32::from(block.own);
        if n <= base {
            return None;
        }
        let uses = self.uses(block).iter();
        for (row, position) in uses.zip(1u32..) {
            let end = base + self.used(row).total;
            if n <= end {
                let copy = Copy { block: row[2] as usize, base };
                let row = block.uses as usize + position as usize - 1;
                return Some(Step { row, position, copy });
            }
            base = end;
        }
        None
    }
}

/// The pass over the rows: the blocks before the current one.
struct Pass<'a, 'b> {
    rows: &'a [Row],
    blocks: &'b mut Room,
    count: usize,
}

impl Pass<'_, '_> {
    /// Checks the block that opens at a row; gives the row after it.
    fn block(&mut self, open: usize) -> Result<usize, (u32, usize)> {
        let (rows, number) = (self.rows, self.count as u32);
        let (joins, own) = opening(&rows[open], number).map_err(|refusal| (refusal, open))?;
        let most = joins + own;
        let mut next = open + 1;
        let mut last = 0;
        while next < rows.len() && rows[next][0] == number && rows[next][1] == 1 {
            last = link(&rows[next], most, last).map_err(|refusal| (refusal, next))?;
            next += 1;
        }
        let uses = next;
        let mut total = u64::from(own);
        while next < rows.len() && rows[next][0] == number && rows[next][1] == 2 {
            let above = &rows[if next == uses { next } else { next - 1 }];
            let used =
                self.check_use(&rows[next], above, most).map_err(|refusal| (refusal, next))?;
            total += u64::from(used);
            next += 1;
        }
        self.blocks[self.count] = Block {
            total: total.min(TOTAL + 1) as u32,
            open: open as u32,
            uses: uses as u32,
            end: next as u32,
            joins: joins as u8,
            own: own as u8,
        };
        self.count += 1;
        Ok(next)
    }

    /// Checks a use against the one above it; gives the total of its block.
    fn check_use(&self, row: &Row, above: &Row, most: u32) -> Result<u32, u32> {
        if row[2] >= row[0] {
            return Err(6);
        }
        let used = &self.blocks[row[2] as usize % BLOCKS];
        let (named, idle) = row[3..].split_at(usize::from(used.joins).min(JOINS));
        let (mut outside, mut seen) = (false, 0u64);
        for cue in named {
            outside |= cue.wrapping_sub(1) >= most;
            seen |= 1 << (cue % 64);
        }
        if outside || idle.iter().fold(0, |all, column| all | column) != 0 {
            return Err(6);
        }
        if seen.count_ones() as usize != named.len() && twice(named) {
            return Err(7);
        }
        if falls(above, row) {
            Err(8)
        } else {
            Ok(used.total)
        }
    }
}

fn check_joins(blocks: &[Block]) -> Result<(), usize> {
    let (last, earlier) = blocks.split_last().ok_or(0usize)?;
    if let Some(block) = earlier.iter().find(|block| block.joins == 0) {
        return Err(block.open as usize);
    }
    if last.joins != 0 || last.own == 0 {
        Err(last.open as usize)
    } else {
        Ok(())
    }
}

fn check_totals(blocks: &[Block]) -> Result<(), usize> {
    match blocks.iter().find(|block| u64::from(block.total) > TOTAL) {
        Some(block) => Err(block.open as usize),
        None => Ok(()),
    }
}

fn refused(number: u32, row: usize) -> Refusal {
    Refusal { number, place: row as u32 + 1 }
}

/// Joins and own cues of an opening.
fn opening(row: &Row, number: u32) -> Result<(u32, u32), u32> {
    let [block, kind, joins, own, rest @ ..] = row;
    if *block != number || *kind != 0 || number >= BLOCKS as u32 {
        return Err(5);
    }
    let idle = rest.iter().fold(0, |all, column| all | column);
    if *joins > JOINS as u32 || *own > OWN as u32 || idle != 0 {
        return Err(6);
    }
    Ok((*joins, *own))
}

/// Checks a link; gives the number by which links rise.
fn link(row: &Row, most: u32, last: u32) -> Result<u32, u32> {
    let [_, _, label, from, to, rest @ ..] = row;
    let idle = rest.iter().fold(0, |all, column| all | column);
    let outside = from.wrapping_sub(1) >= most || to.wrapping_sub(1) >= most;
    if label.wrapping_sub(1) >= 255 || outside || idle != 0 {
        return Err(6);
    }
    if from == to {
        return Err(7);
    }
    let order = from << 17 | to << 8 | label;
    if order <= last {
        Err(8)
    } else {
        Ok(order)
    }
}

/// Whether a cue stands twice.
fn twice(cues: &[u32]) -> bool {
    (1..cues.len()).any(|place| cues[..place].contains(&cues[place]))
}

/// Whether a use comes before the one above it.
fn falls(above: &Row, row: &Row) -> bool {
    for (column, before) in row[3..].iter().zip(&above[3..]) {
        if column != before {
            return column < before;
        }
    }
    row[2] < above[2]
}
