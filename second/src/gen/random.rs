//! Random shows that are accepted.

use std::collections::BTreeSet;

use super::build::Build;
use super::notes;
use super::prng::Prng;
use crate::limits::{BLOCKS, DESK_BLOCKS};

/// How large a random show may become.
#[derive(Clone, Copy, Debug)]
pub struct Shape {
    pub blocks: (u32, u32),
    pub joins: u32,
    pub own: u32,
    pub links: u32,
    pub uses: u32,
    pub total: u64,
}

/// Small shows, most of which every question can be asked about in full.
pub const SHAPES: [Shape; 5] = [
    Shape { blocks: (1, 4), joins: 3, own: 3, links: 5, uses: 3, total: 14 },
    Shape { blocks: (2, 6), joins: 2, own: 2, links: 4, uses: 4, total: 20 },
    Shape { blocks: (3, 10), joins: 4, own: 1, links: 4, uses: 3, total: 10 },
    Shape { blocks: (1, 7), joins: 8, own: 9, links: 12, uses: 4, total: 30 },
    Shape { blocks: (4, 16), joins: 3, own: 2, links: 4, uses: 3, total: 24 },
];

/// Shows with some hundred cues.
pub const LARGER: Shape =
    Shape { blocks: (3, 20), joins: 8, own: 20, links: 30, uses: 6, total: 250 };

/// Shows of few cues, with many ways down to a link between two joins.
pub const TANGLED: Shape =
    Shape { blocks: (4, 14), joins: 3, own: 1, links: 2, uses: 5, total: 16 };

/// What the blocks above have to know of a block.
struct Done {
    joins: u32,
    total: u64,
}

/// The blocks so far, with the rows that were made for them.
#[derive(Default)]
struct Made {
    build: Build,
    done: Vec<Done>,
}

impl Made {
    /// The blocks that come with the desk, and no row yet.
    fn desk() -> Made {
        let done = (1..=DESK_BLOCKS as u64).map(|total| Done { joins: 2, total }).collect();
        Made { build: Build::behind_desk(), done }
    }
}

/// A random show of this shape, with notes among its links.
pub fn show(prng: &mut Prng, shape: &Shape) -> Vec<u32> {
    shaped(prng, shape, Made::default())
}

/// The rows of a file for the second way of reading: a random show of this shape, whose blocks also use
/// those of the desk.
pub fn desk_show(prng: &mut Prng, shape: &Shape) -> Vec<u32> {
    shaped(prng, shape, Made::desk())
}

fn shaped(prng: &mut Prng, shape: &Shape, mut made: Made) -> Vec<u32> {
    let blocks = prng.within(shape.blocks.0, shape.blocks.1);
    for k in 1..=blocks {
        let last = k == blocks;
        let joins = if last { 0 } else { prng.within(1, shape.joins) };
        let own = own_cues(prng, shape.own, last);
        let uses = prng.within(0, shape.uses) as usize;
        let links = prng.within(0, shape.links) as usize;
        let counts = Counts { joins, own, links, uses, total: shape.total };
        block(prng, &mut made, &counts);
    }
    let mut rows = made.build.numbers();
    notes::some(prng, &mut rows);
    rows
}

fn own_cues(prng: &mut Prng, most: u32, last: bool) -> u32 {
    if !last && prng.one_in(4) {
        return 0;
    }
    prng.within(last.into(), most)
}

/// A random show of exactly this many rows, with about `per_block` rows to a block and at
/// most `total` cues. Few of its links are notes: those that happen to have the last of 255 labels.
pub fn sized(prng: &mut Prng, rows: usize, per_block: usize, total: u64) -> Vec<u32> {
    filled(prng, rows, per_block, total, Made::default())
}

/// The same, as the rows of a file for the second way of reading: its blocks also use those of the desk.
pub fn desk_sized(prng: &mut Prng, rows: usize, per_block: usize, total: u64) -> Vec<u32> {
    filled(prng, rows, per_block, total, Made::desk())
}

fn filled(prng: &mut Prng, rows: usize, per_block: usize, total: u64, mut made: Made) -> Vec<u32> {
    let blocks = (rows / per_block).clamp(1, BLOCKS - made.done.len());
    for k in 1..=blocks {
        let (joins, own) = (prng.within(1, 4), prng.within(2, 9));
        let joins = if k == blocks { 0 } else { joins };
        let inside = rows * k / blocks - made.build.rows.len() - 1;
        let uses = if made.done.is_empty() { 0 } else { prng.below(inside + 1) };
        let counts = Counts { joins, own, links: inside - uses, uses, total };
        block(prng, &mut made, &counts);
    }
    assert_eq!(made.build.rows.len(), rows);
    made.build.numbers()
}

/// The numbers of one block.
struct Counts {
    joins: u32,
    own: u32,
    links: usize,
    uses: usize,
    total: u64,
}

/// Adds a block. Uses that find no place become links; links that find none are left out.
fn block(prng: &mut Prng, made: &mut Made, counts: &Counts) {
    let Made { build, done } = made;
    build.open(counts.joins, counts.own);
    let cues = counts.own + counts.joins;
    let mut total = u64::from(counts.own);
    let mut uses: Vec<(Vec<u32>, u32)> = Vec::new();
    for _ in 0..counts.uses {
        let again = uses.last().filter(|_| prng.one_in(5)).cloned();
        let next = again.or_else(|| random_use(prng, done, cues));
        let Some((columns, label)) = next else { continue };
        if total + done[label as usize].total <= counts.total {
            total += done[label as usize].total;
            uses.push((columns, label));
        }
    }
    uses.sort();
    let links = counts.links + counts.uses - uses.len();
    for (from, to, label) in random_links(prng, cues, links) {
        build.link(label, from, to);
    }
    for (columns, label) in &uses {
        build.take(*label, columns);
    }
    done.push(Done { joins: counts.joins, total });
}

/// A lower block, often the latest, at distinct cues.
fn random_use(prng: &mut Prng, done: &[Done], cues: u32) -> Option<(Vec<u32>, u32)> {
    let latest = done.len().checked_sub(1)?;
    let label = if prng.one_in(2) { latest } else { prng.below(done.len()) };
    let joins = done[label].joins as usize;
    let mut columns: Vec<u32> = (1..=cues).collect();
    prng.shuffle(&mut columns);
    columns.truncate(joins);
    (columns.len() == joins).then_some((columns, label as u32))
}

/// Distinct links; fewer than wanted where the cues have no more.
fn random_links(prng: &mut Prng, cues: u32, links: usize) -> BTreeSet<(u32, u32, u32)> {
    let pairs = (cues * cues.saturating_sub(1)) as usize;
    let labels = if prng.one_in(4) || links > pairs { 255 } else { 2 };
    let mut chosen = BTreeSet::new();
    while chosen.len() < links.min(pairs * labels as usize / 2) {
        let (from, to) = (prng.within(1, cues), prng.within(1, cues));
        if from != to {
            chosen.insert((from, to, prng.within(1, labels)));
        }
    }
    chosen
}
