//! The smallest sum over the chains between two cues, where each link has a price by its label: summaries
//! from the bottom up, then up from s and down to t through their copies.

use super::check::{self, Block, Show};
use crate::limits::{Row, FOLLOWED, JOINS, PATH, STRIDE};

/// A sum of prices, so wide that no sum of a chain is `NONE`.
pub trait Sum: Copy + Ord {
    /// No chain.
    const NONE: Self;
    /// The sum of a chain without links.
    const ZERO: Self;
    /// The sum of both; `NONE` where one of them is that.
    fn plus(self, more: Self) -> Self;
}

impl Sum for u32 {
    const NONE: u32 = u32::MAX;
    const ZERO: u32 = 0;
    fn plus(self, more: u32) -> u32 {
        self.saturating_add(more)
    }
}

impl Sum for u64 {
    const NONE: u64 = u64::MAX;
    const ZERO: u64 = 0;
    fn plus(self, more: u64) -> u64 {
        self.saturating_add(more)
    }
}

/// An estimate for each cue of a block; more places than cues, so that no index is outside.
type Estimates<N> = [N; 512];
/// For each level above s, the estimates at the joins of its copy.
type Kept<N> = [[N; JOINS]; PATH + 1];

/// The smallest sum from s to t, which are cues of the show. The summaries of its blocks are left in
/// `sums`, which has room for them.
pub fn smallest<N: Sum>(
    show: &Show,
    price: impl Fn(u32) -> N + Copy,
    s: u32,
    t: u32,
    sums: &mut [N],
) -> N {
    sums.fill(N::NONE);
    let mut estimates = [N::NONE; 512];
    for k in 0..show.count {
        summary(show, price, k, sums, &mut estimates);
    }
    Search { show, sums, price }.smallest(s, t, &mut estimates)
}

/// Fills the summary of block k from those of the blocks before it.
fn summary<N: Sum>(
    show: &Show,
    price: impl Fn(u32) -> N + Copy,
    k: usize,
    sums: &mut [N],
    estimates: &mut Estimates<N>,
) {
    let block = &show.blocks[k];
    let (below, mine) = sums.split_at_mut(STRIDE * k);
    let joins = usize::from(block.joins);
    let search = Search { show, sums: below, price };
    for (i, line) in mine.chunks_exact_mut(JOINS).take(joins).enumerate() {
        clear(block, estimates);
        estimates[usize::from(block.own) + 1 + i] = N::ZERO;
        search.relax(block, estimates);
        line[..joins].copy_from_slice(joined(block, estimates));
    }
}

/// Forgets the estimates of a block's cues.
fn clear<N: Sum>(block: &Block, estimates: &mut Estimates<N>) {
    estimates[..=usize::from(block.own) + usize::from(block.joins)].fill(N::NONE);
}

/// The estimates of a block's joins.
fn joined<'a, N>(block: &Block, estimates: &'a mut Estimates<N>) -> &'a mut [N] {
    let own = usize::from(block.own);
    &mut estimates[own + 1..=own + usize::from(block.joins)]
}

/// Lowers an estimate; says whether that changed it.
fn lower<N: Sum>(estimates: &mut Estimates<N>, cue: u32, sum: N) -> bool {
    let estimate = &mut estimates[cue as usize % 512];
    let lower = sum < *estimate;
    *estimate = sum.min(*estimate);
    lower
}

/// Lowers the estimates of a few cues, one pair at a time.
fn relax_few<N: Sum>(lines: &[[N; JOINS]], cues: &[u32], estimates: &mut Estimates<N>) -> bool {
    let mut changed = false;
    for (line, from) in lines.iter().zip(cues) {
        let sum = estimates[*from as usize % 512];
        if sum == N::NONE {
            continue;
        }
        for (more, to) in line.iter().zip(cues) {
            changed |= lower(estimates, *to, sum.plus(*more));
        }
    }
    changed
}

/// Lowers the estimates of many cues, a line at a time.
fn relax_many<N: Sum>(lines: &[[N; JOINS]], cues: &[u32], estimates: &mut Estimates<N>) -> bool {
    let mut old = [N::NONE; JOINS];
    for (estimate, cue) in old.iter_mut().zip(cues) {
        *estimate = estimates[*cue as usize % 512];
    }
    let mut new = old;
    for (line, sum) in lines.iter().zip(old) {
        if sum != N::NONE {
            for (estimate, more) in new.iter_mut().zip(line) {
                *estimate = sum.plus(*more).min(*estimate);
            }
        }
    }
    for (estimate, cue) in new.iter().zip(cues) {
        estimates[*cue as usize % 512] = *estimate;
    }
    new != old
}

/// The copies from the show down to the one that owns a cue, each with the row of its use.
struct Trail {
    levels: [(usize, check::Copy); PATH + 1],
    depth: usize,
}

impl Trail {
    fn to(show: &Show, cue: u32) -> Trail {
        let mut trail = Trail { levels: [(0, show.top()); PATH + 1], depth: 0 };
        while let Some(step) = show.below(trail.levels[trail.depth].1, cue) {
            trail.depth += 1;
            trail.levels[trail.depth] = (step.row, step.copy);
        }
        trail
    }
}

struct Search<'a, N, P> {
    show: &'a Show<'a>,
    sums: &'a [N],
    price: P,
}

impl<N: Sum, P: Fn(u32) -> N> Search<'_, N, P> {
    /// Lowers the estimates along links and uses until nothing changes. Notes lower none.
    fn relax(&self, block: &Block, estimates: &mut Estimates<N>) {
        loop {
            let mut changed = false;
            for row in self.show.links(block).iter().filter(|row| row[2] <= FOLLOWED) {
                let sum = estimates[row[3] as usize % 512].plus((self.price)(row[2]));
                changed |= lower(estimates, row[4], sum);
            }
            for row in self.show.uses(block) {
                changed |= self.relax_use(row, estimates);
            }
            if !changed {
                return;
            }
        }
    }

    /// Lowers the estimates of the cues that a use names. A sum over the most that its bits
    /// hold stands for no chain, which no estimate reaches.
    fn relax_use(&self, row: &Row, estimates: &mut Estimates<N>) -> bool {
        let joins = usize::from(self.show.used(row).joins).min(JOINS);
        let (lines, _) = self.sums[STRIDE * row[2] as usize..].as_chunks::<JOINS>();
        let cues = &row[3..3 + joins];
        if joins > 4 {
            relax_many(lines, cues, estimates)
        } else {
            relax_few(lines, cues, estimates)
        }
    }

    /// The smallest sum from s to t.
    fn smallest(&self, s: u32, t: u32, estimates: &mut Estimates<N>) -> N {
        let trail = Trail::to(self.show, s);
        let mut kept = [[N::NONE; JOINS]; PATH + 1];
        for level in (0..=trail.depth).rev() {
            let block = &self.show.blocks[trail.levels[level].1.block];
            clear(block, estimates);
            self.start(&trail, level, s, &kept, estimates);
            self.relax(block, estimates);
            let joins = joined(block, estimates);
            kept[level][..joins.len()].copy_from_slice(joins);
        }
        self.down(&trail, &kept, s, t, estimates)
    }

    /// Estimates a copy on the trail of s: 0 at s, or what the copy below kept.
    fn start(
        &self,
        trail: &Trail,
        level: usize,
        s: u32,
        kept: &Kept<N>,
        estimates: &mut Estimates<N>,
    ) {
        if level == trail.depth {
            estimates[(s - trail.levels[level].1.base) as usize % 512] = N::ZERO;
            return;
        }
        let row = &self.show.rows[trail.levels[level + 1].0];
        let joins = usize::from(self.show.used(row).joins);
        for (cue, sum) in row[3..3 + joins].iter().zip(kept[level + 1]) {
            lower(estimates, *cue, sum);
        }
    }

    /// From the exact estimates of the show down to those of the copy that owns t.
    fn down(
        &self,
        trail: &Trail,
        kept: &Kept<N>,
        s: u32,
        t: u32,
        estimates: &mut Estimates<N>,
    ) -> N {
        let (mut copy, mut level, mut holds_s) = (self.show.top(), 0, true);
        while let Some(step) = self.show.below(copy, t) {
            let row = &self.show.rows[step.row];
            let mut met = [N::NONE; JOINS];
            for (sum, cue) in met.iter_mut().zip(&row[3..]) {
                *sum = estimates[*cue as usize % 512];
            }
            (copy, level) = (step.copy, level + 1);
            let block = &self.show.blocks[copy.block];
            clear(block, estimates);
            joined(block, estimates).copy_from_slice(&met[..usize::from(block.joins)]);
            holds_s &= level <= trail.depth && trail.levels[level].0 == step.row;
            if holds_s {
                self.start(trail, level, s, kept, estimates);
            }
            self.relax(block, estimates);
        }
        estimates[(t - copy.base) as usize % 512]
    }
}
