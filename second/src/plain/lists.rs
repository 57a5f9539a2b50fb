//! The cues linked to a cue, in rising order, without visiting a copy that has none.

use super::check::{Block, Copy, Show, EMPTY};
use super::frame::Frame;
use super::{checked, column, is_cue};
use crate::limits::{Refusal, BLOCKS, JOINS};

pub fn list<const OUT: bool>(
    rows: &[u32],
    v: u32,
    n: u32,
    page: &mut [u32],
    given: &mut [u32],
) -> Result<(), Refusal> {
    let mut room = EMPTY;
    let show = checked(rows, &mut room, true, given)?;
    is_cue(&show, v)?;
    let Frame { copy, met } = Frame::owning(&show, v, |_| ());
    let cue = v - copy.base;
    let mut ends = Ends::EMPTY;
    ends.prepare::<OUT>(&show, copy.block, cue);
    let mut walk = Walk { show: &show, ends: &ends, after: n, page, written: 0, more: false };
    walk.from::<OUT>(copy, cue, met);
    given[..2].copy_from_slice(&[walk.written as u32, walk.more.into()]);
    Ok(())
}

/// For each block and join: what the join is linked to inside. Only entries that a
/// walk can reach are filled.
struct Ends {
    need: [u8; BLOCKS],
    /// Joins that have a linked cue numbered inside.
    any: [u8; BLOCKS],
    /// Linked joins.
    joins: [[u8; JOINS]; BLOCKS],
    /// Linked own cues; cue c is bit c - 1.
    own: [[[u64; 4]; JOINS]; BLOCKS],
}

/// What one cue of a block is linked to inside the block.
#[derive(Default)]
struct Linked {
    joins: u8,
    own: [u64; 4],
    any: bool,
}

impl Linked {
    fn add(&mut self, block: &Block, cue: u32) {
        let own = u32::from(block.own);
        if cue > own {
            self.joins |= 1 << ((cue - own - 1) % 8);
        } else {
            self.own[(cue - 1) as usize / 64 % 4] |= 1 << ((cue - 1) % 64);
            self.any = true;
        }
    }
}

impl Ends {
    const EMPTY: Ends = Ends {
        need: [0; BLOCKS],
        any: [0; BLOCKS],
        joins: [[0; JOINS]; BLOCKS],
        own: [[[0; 4]; JOINS]; BLOCKS],
    };

    /// Fills the table for a walk from a cue of block k.
    fn prepare<const OUT: bool>(&mut self, show: &Show, k: usize, cue: u32) {
        self.mark(show, k, cue);
        for b in (0..k).rev() {
            for_each_bit(self.need[b], |join| self.mark(show, b, join_cue(show, b, join)));
        }
        for b in 0..k {
            for_each_bit(self.need[b], |join| self.fill::<OUT>(show, b, join));
        }
    }

    /// Marks the joins of lower blocks that a cue meets.
    fn mark(&mut self, show: &Show, b: usize, cue: u32) {
        for row in show.uses(&show.blocks[b]) {
            if let Some(join) = column(row, cue) {
                self.need[row[2] as usize % BLOCKS] |= 1 << join;
            }
        }
    }

    fn fill<const OUT: bool>(&mut self, show: &Show, b: usize, join: usize) {
        let linked = self.linked::<OUT>(show, b, join_cue(show, b, join));
        self.any[b] |= u8::from(linked.any) << join;
        self.joins[b][join] = linked.joins;
        self.own[b][join] = linked.own;
    }

    /// Links of one cue of a block: its own links, and those inside its uses.
    fn linked<const OUT: bool>(&self, show: &Show, b: usize, cue: u32) -> Linked {
        let block = &show.blocks[b];
        let mut linked = Linked::default();
        for row in show.links(block) {
            let (near, far) = if OUT { (row[3], row[4]) } else { (row[4], row[3]) };
            if near == cue {
                linked.add(block, far);
            }
        }
        for row in show.uses(block) {
            let Some(join) = column(row, cue) else { continue };
            let used = row[2] as usize % BLOCKS;
            for_each_bit(self.joins[used][join], |other| linked.add(block, row[3 + other]));
            linked.any |= self.any[used] >> join & 1 == 1;
        }
        linked
    }
}

fn join_cue(show: &Show, b: usize, join: usize) -> u32 {
    u32::from(show.blocks[b].own) + join as u32 + 1
}

fn for_each_bit(mut bits: u8, mut action: impl FnMut(usize)) {
    while bits != 0 {
        action(bits.trailing_zeros() as usize);
        bits &= bits - 1;
    }
}

struct Walk<'a> {
    show: &'a Show<'a>,
    ends: &'a Ends,
    after: u32,
    page: &'a mut [u32],
    written: usize,
    more: bool,
}

impl Walk<'_> {
    /// Lists what the own cue of a copy is linked to: joins, own cues, then inside uses.
    fn from<const OUT: bool>(&mut self, copy: Copy, cue: u32, met: [u32; JOINS]) -> bool {
        let linked = self.ends.linked::<OUT>(self.show, copy.block, cue);
        let mut joins = [0; JOINS];
        for_each_bit(linked.joins, |join| joins[join] = met[join]);
        joins.sort_unstable();
        joins.iter().all(|number| self.add(*number))
            && self.own_cues(copy.base, &linked.own)
            && self.uses(copy, cue)
    }

    /// Lists a number unless it is passed already; false once the page is known to be full.
    fn add(&mut self, number: u32) -> bool {
        if number <= self.after {
            return true;
        }
        let Some(place) = self.page.get_mut(self.written) else {
            self.more = true;
            return false;
        };
        *place = number;
        self.written += 1;
        true
    }

    fn own_cues(&mut self, base: u32, own: &[u64; 4]) -> bool {
        let mut first = base + 1;
        for word in own {
            let mut bits = *word;
            while bits != 0 {
                if !self.add(first + bits.trailing_zeros()) {
                    return false;
                }
                bits &= bits - 1;
            }
            first += 64;
        }
        true
    }

    /// Lists what a cue of a copy is linked to inside the copy's uses.
    fn uses(&mut self, copy: Copy, cue: u32) -> bool {
        let block = &self.show.blocks[copy.block];
        let mut base = copy.base + u32::from(block.own);
        for row in self.show.uses(block) {
            let end = base + self.show.used(row).total;
            if end > self.after {
                if let Some(join) = column(row, cue) {
                    if !self.inside(Copy { block: row[2] as usize % BLOCKS, base }, join) {
                        return false;
                    }
                }
            }
            base = end;
        }
        true
    }

    /// Lists what a join of a copy is linked to among the numbers of the copy.
    fn inside(&mut self, copy: Copy, join: usize) -> bool {
        if self.ends.any[copy.block] >> join & 1 == 0 {
            return true;
        }
        let own = &self.ends.own[copy.block][join];
        self.own_cues(copy.base, own) && self.uses(copy, join_cue(self.show, copy.block, join))
    }
}
