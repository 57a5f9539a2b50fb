//! The row behind a follow-on: levels of pairs of joins from the bottom up, then down from the
//! copy that sees both cues.

use super::check::{Block, Show, EMPTY};
use super::frame::Frame;
use super::{checked, column, is_cue};
use crate::limits::{Refusal, Row, BLOCKS, JOINS, PATH};

/// For a pair of joins: how many copies the best way from a copy of the block down to a link row
/// between the two has, both ends counted; 0 where there is none.
type Level = u8;
/// The levels of a block, from join to join.
type Levels = [[Level; JOINS]; JOINS];

pub fn row(
    rows: &[u32],
    s: u32,
    t: u32,
    path: &mut [u32],
    given: &mut [u32],
) -> Result<(), Refusal> {
    let mut room = EMPTY;
    let show = checked(rows, &mut room, path.len() >= PATH, given)?;
    is_cue(&show, s)?;
    is_cue(&show, t)?;
    let (row, way) = origin(&show, s, t).ok_or(Refusal { number: 14, place: 0 })?;
    for (step, taken) in path.iter_mut().zip(way.taken()) {
        let block = show.rows[*taken as usize][0] as usize;
        *step = taken - show.blocks[block % BLOCKS].uses + 1;
    }
    given[..2].copy_from_slice(&[row + 1, way.depth as u32]);
    Ok(())
}

/// The row that links s to t, from 0, and the way to its copy. The copy that owns the larger cue
/// sees the other one, if any copy sees both: the cues below a copy have larger numbers than its own.
fn origin(show: &Show, s: u32, t: u32) -> Option<(u32, Way)> {
    let mut way = Way::EMPTY;
    let frame = Frame::owning(show, s.max(t), |step| way.push(step.row as u32));
    let pair = (frame.cue(show, s)?, frame.cue(show, t)?);
    let mut levels = [[[0; JOINS]; JOINS]; BLOCKS];
    for b in 0..frame.copy.block {
        fill(show, b, &mut levels);
    }
    let row = Search { show, levels: &levels }.down(frame.copy.block, pair, &mut way)?;
    Some((row, way))
}

/// The rows of the uses that lead from the show down to a copy.
struct Way {
    rows: [u32; PATH],
    depth: usize,
}

impl Way {
    const EMPTY: Way = Way { rows: [0; PATH], depth: 0 };

    fn push(&mut self, row: u32) {
        self.rows[self.depth] = row;
        self.depth += 1;
    }

    fn taken(&self) -> &[u32] {
        &self.rows[..self.depth]
    }
}

/// Whether a way of so many copies is better than the other.
fn wins(one: Level, other: Level) -> bool {
    one < other
}

/// Keeps the better level.
fn keep(level: &mut Level, found: Level) {
    if *level == 0 || wins(found, *level) {
        *level = found;
    }
}

/// Fills the levels of block b from those of the blocks before it.
fn fill(show: &Show, b: usize, levels: &mut [Levels; BLOCKS]) {
    let block = &show.blocks[b];
    let (below, rest) = levels.split_at_mut(b);
    let mine = &mut rest[0];
    let first = u32::from(block.own) + 1;
    for row in show.links(block) {
        if let (Some(from), Some(to)) = (row[3].checked_sub(first), row[4].checked_sub(first)) {
            keep(&mut mine[from as usize % JOINS][to as usize % JOINS], 1);
        }
    }
    for row in show.uses(block) {
        lift(row, first, &below[row[2] as usize], mine);
    }
}

/// Lifts the levels of a used block to those joins of the block that the use names. Most pairs of
/// joins have none, so a line is looked at as a whole first.
fn lift(row: &Row, first: u32, used: &Levels, mine: &mut Levels) {
    let join = |column: usize| row[3 + column].checked_sub(first).map(|join| join as usize % JOINS);
    for (i, line) in used.iter().enumerate() {
        let mut left = u64::from_le_bytes(*line);
        if left == 0 {
            continue;
        }
        let Some(from) = join(i) else { continue };
        while left != 0 {
            let j = left.trailing_zeros() as usize / 8;
            left &= !(0xFF << (8 * j));
            if let Some(to) = join(j) {
                keep(&mut mine[from][to], line[j] + 1);
            }
        }
    }
}

struct Search<'a> {
    show: &'a Show<'a>,
    levels: &'a [Levels; BLOCKS],
}

/// A use that names two cues: its row, the columns that name them, and their level inside.
struct Down {
    row: u32,
    columns: (usize, usize),
    level: Level,
}

impl Search<'_> {
    /// The row between two cues of block k, in its copy at the end of the way or in one below it,
    /// to which the way is prolonged.
    fn down(&self, mut k: usize, mut pair: (u32, u32), way: &mut Way) -> Option<u32> {
        loop {
            let block = &self.show.blocks[k];
            let here = self.link(block, pair);
            let below = self.best(block, pair);
            match below.filter(|down| here.is_none() || wins(down.level + 1, 1)) {
                Some(down) => (k, pair) = self.enter(&down, way),
                None => return here,
            }
        }
    }

    /// The block of a use and the joins that meet the two cues; the use is added to the way.
    fn enter(&self, down: &Down, way: &mut Way) -> (usize, (u32, u32)) {
        way.push(down.row);
        let used = self.show.rows[down.row as usize][2] as usize % BLOCKS;
        let first = u32::from(self.show.blocks[used].own) + 1;
        (used, (first + down.columns.0 as u32, first + down.columns.1 as u32))
    }

    /// The first link row of a block between two cues.
    fn link(&self, block: &Block, pair: (u32, u32)) -> Option<u32> {
        let place = self.show.links(block).iter().position(|row| (row[3], row[4]) == pair)?;
        Some(block.open + 1 + place as u32)
    }

    /// The first of the uses with the best way to a link row between two cues.
    fn best(&self, block: &Block, pair: (u32, u32)) -> Option<Down> {
        let mut best: Option<Down> = None;
        for (row, place) in self.show.uses(block).iter().zip(block.uses..) {
            let (Some(from), Some(to)) = (column(row, pair.0), column(row, pair.1)) else {
                continue;
            };
            let level = self.levels[row[2] as usize % BLOCKS][from][to];
            if level != 0 && best.as_ref().is_none_or(|best| wins(level, best.level)) {
                best = Some(Down { row: place, columns: (from, to), level });
            }
        }
        best
    }
}
