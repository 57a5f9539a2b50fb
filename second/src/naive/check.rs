//! The check of rows: refusals 4 to 10.

use crate::limits::{Refusal, Row, BLOCKS, COLUMNS, FOLLOWED, JOINS, OWN, ROWS, TOTAL};

/// A follow-on between two cues of a block.
#[derive(Clone, Copy, Debug, PartialEq, Eq, PartialOrd, Ord)]
pub struct Link {
    pub from: u32,
    pub to: u32,
    pub label: u32,
}

impl Link {
    /// Whether a chain may have it; a note is in none.
    pub fn is_followed(&self) -> bool {
        self.label <= FOLLOWED
    }
}

/// A use of a lower block; its cues in the order of that block's joins.
/// Uses compare by all their columns, then by the label.
#[derive(Clone, Debug, PartialEq, Eq, PartialOrd, Ord)]
pub struct Use {
    pub columns: [u32; JOINS],
    pub label: u32,
    pub joins: usize,
}

impl Use {
    /// The cues that the joins of the used block meet.
    pub fn cues(&self) -> &[u32] {
        &self.columns[..self.joins]
    }
}

/// A block with the row that opens it.
#[derive(Clone, Debug)]
pub struct Block {
    pub row: usize,
    pub joins: u32,
    pub own: u32,
    pub links: Vec<Link>,
    pub uses: Vec<Use>,
    pub total: u64,
}

impl Block {
    fn names(&self, cue: u32) -> bool {
        (1..=self.own + self.joins).contains(&cue)
    }

    /// The number of a cue in a copy whose own cues follow base and whose joins meet these.
    pub fn number(&self, base: u32, met: &[u32], cue: u32) -> u32 {
        match cue.checked_sub(self.own + 1) {
            None => base + cue,
            Some(join) => met[join as usize],
        }
    }
}

/// The numbers cut into rows, or refusal 4.
pub fn cut(numbers: &[u32]) -> Result<Vec<Row>, Refusal> {
    let (rows, rest) = numbers.as_chunks::<COLUMNS>();
    if rows.is_empty() || rows.len() > ROWS || !rest.is_empty() {
        return Err(Refusal::new(4, 0));
    }
    Ok(rows.to_vec())
}

/// The blocks of a show with their totals, or the first of the refusals 4 to 10.
pub fn check(numbers: &[u32]) -> Result<Vec<Block>, Refusal> {
    let mut blocks = Vec::new();
    for (row, number) in cut(numbers)?.iter().zip(1..) {
        add(&mut blocks, row, number).map_err(|refusal| Refusal::new(refusal, number))?;
    }
    check_joins(&blocks)?;
    check_totals(&mut blocks)?;
    Ok(blocks)
}

/// Adds one row to the blocks before it, or gives the refusal 5 to 8.
fn add(blocks: &mut Vec<Block>, row: &Row, number: usize) -> Result<(), u32> {
    if !may_follow(blocks, row) {
        return Err(5);
    }
    match row[1] {
        0 => blocks.push(opening(row, number)?),
        1 => {
            let block = blocks.last_mut().ok_or(5u32)?;
            let link = link(block, row)?;
            block.links.push(link);
        }
        _ => {
            let taken = use_of(blocks, row)?;
            blocks.last_mut().ok_or(5u32)?.uses.push(taken);
        }
    }
    Ok(())
}

/// Whether the block number and the kind of a row may come after these blocks.
fn may_follow(blocks: &[Block], row: &Row) -> bool {
    let [block, kind, ..] = *row;
    let opened = blocks.len() as u32;
    match (kind, blocks.last()) {
        (0, _) => block == opened && blocks.len() < BLOCKS,
        (1, Some(last)) => block == opened - 1 && last.uses.is_empty(),
        (2, Some(_)) => block == opened - 1,
        _ => false,
    }
}

fn require(holds: bool, refusal: u32) -> Result<(), u32> {
    if holds {
        Ok(())
    } else {
        Err(refusal)
    }
}

fn all_zero(columns: &[u32]) -> bool {
    columns.iter().all(|value| *value == 0)
}

fn opening(row: &Row, number: usize) -> Result<Block, u32> {
    let (joins, own) = (row[2], row[3]);
    require(joins <= JOINS as u32 && own <= OWN as u32, 6)?;
    require(all_zero(&row[4..]), 6)?;
    let (links, uses) = (Vec::new(), Vec::new());
    Ok(Block { row: number, joins, own, links, uses, total: 0 })
}

fn link(block: &Block, row: &Row) -> Result<Link, u32> {
    let (label, from, to) = (row[2], row[3], row[4]);
    let link = Link { from, to, label };
    require((1..=255).contains(&label) && all_zero(&row[5..]), 6)?;
    require(block.names(from) && block.names(to), 6)?;
    require(from != to, 7)?;
    require(block.links.last().is_none_or(|last| *last < link), 8)?;
    Ok(link)
}

fn use_of(blocks: &[Block], row: &Row) -> Result<Use, u32> {
    let (block, label) = (blocks.last().ok_or(5u32)?, row[2]);
    require(label < row[0], 6)?;
    let joins = blocks[label as usize].joins as usize;
    let columns: [u32; JOINS] = row[3..].try_into().expect("a row has eight columns");
    let taken = Use { columns, label, joins };
    require(taken.cues().iter().all(|cue| block.names(*cue)), 6)?;
    require(all_zero(&columns[joins..]), 6)?;
    let mut cues = taken.cues().to_vec();
    cues.sort();
    require(cues.windows(2).all(|pair| pair[0] != pair[1]), 7)?;
    require(block.uses.last().is_none_or(|last| *last <= taken), 8)?;
    Ok(taken)
}

/// Refusal 9: the last block is the show, the others have joins.
fn check_joins(blocks: &[Block]) -> Result<(), Refusal> {
    let (show, earlier) = blocks.split_last().expect("the first row opens a block");
    for block in earlier {
        require(block.joins > 0, 9).map_err(|refusal| Refusal::new(refusal, block.row))?;
    }
    require(show.joins == 0 && show.own > 0, 9).map_err(|refusal| Refusal::new(refusal, show.row))
}

/// Sets the totals in order; refusal 10 at the first that is too large.
fn check_totals(blocks: &mut [Block]) -> Result<(), Refusal> {
    for k in 0..blocks.len() {
        let block = &blocks[k];
        let inside = block.uses.iter().map(|taken| blocks[taken.label as usize].total);
        let total = u64::from(block.own) + inside.sum::<u64>();
        require(total <= TOTAL, 10).map_err(|refusal| Refusal::new(refusal, block.row))?;
        blocks[k].total = total;
    }
    Ok(())
}
