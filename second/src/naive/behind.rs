//! The row behind a follow-on: the link rows of the copies that see both cues; of copies of a block
//! that see them by the same joins, the best one.

use std::collections::HashSet;

use super::check::{Block, Link};

/// A link row in a copy. The one to give compares least: by the length of the path, by its
/// steps, by the row.
#[derive(Clone, Debug, PartialEq, Eq, PartialOrd, Ord)]
pub struct Origin {
    pub depth: usize,
    pub path: Vec<u32>,
    pub row: u32,
}

/// A copy of a block: the uses that lead to it, the number before its own cues, and the cues
/// its joins meet.
#[derive(Clone, Default)]
struct Copy {
    path: Vec<u32>,
    base: u32,
    met: Vec<u32>,
}

/// Where links from s to t come from, the one to give first.
pub fn origins(blocks: &[Block], s: u32, t: u32) -> Vec<Origin> {
    let mut copies = vec![Vec::new(); blocks.len()];
    copies[blocks.len() - 1].push(Copy::default());
    let mut origins = Vec::new();
    for (k, block) in blocks.iter().enumerate().rev() {
        for copy in looked_at(std::mem::take(&mut copies[k]), s, t) {
            let between = copy.links(block).filter(|(link, _)| (link.from, link.to) == (s, t));
            origins.extend(between.map(|(_, row)| copy.origin(row)));
            for (used, inner) in copy.uses(blocks, block) {
                if inner.sees(&blocks[used], s) && inner.sees(&blocks[used], t) {
                    copies[used].push(inner);
                }
            }
        }
    }
    origins.sort();
    origins
}

/// The copies of one block that have to be looked at. Those that see s and t by the same joins
/// have the same rows between them, and the same copies below them, so the first path is enough.
fn looked_at(mut copies: Vec<Copy>, s: u32, t: u32) -> Vec<Copy> {
    let mut seen = HashSet::new();
    copies.sort_by_key(|copy| (copy.path.len(), copy.path.clone()));
    copies.retain(|copy| seen.insert((copy.join(s), copy.join(t))));
    copies
}

impl Copy {
    /// The join that meets a cue. A cue that no join meets is inside, and only one copy of a
    /// block has it there.
    fn join(&self, cue: u32) -> Option<usize> {
        self.met.iter().position(|met| *met == cue)
    }

    /// Whether a link row of this copy, or of one below it, can have the cue at an end.
    fn sees(&self, block: &Block, cue: u32) -> bool {
        let inside = u64::from(self.base) + 1..=u64::from(self.base) + block.total;
        inside.contains(&cue.into()) || self.join(cue).is_some()
    }

    /// The links of this copy, each with its row.
    fn links<'a>(&'a self, block: &'a Block) -> impl Iterator<Item = (Link, u32)> + 'a {
        let number = |cue: u32| block.number(self.base, &self.met, cue);
        let links = block.links.iter().map(move |link| {
            let (from, to) = (number(link.from), number(link.to));
            Link { from, to, label: link.label }
        });
        links.zip(block.row as u32 + 1..)
    }

    fn origin(&self, row: u32) -> Origin {
        Origin { depth: self.path.len(), path: self.path.clone(), row }
    }

    /// The copies that are put into this one, each with its block.
    fn uses(&self, blocks: &[Block], block: &Block) -> Vec<(usize, Copy)> {
        let mut base = self.base + block.own;
        let mut uses = Vec::new();
        for (taken, step) in block.uses.iter().zip(1..) {
            let number = |cue: &u32| block.number(self.base, &self.met, *cue);
            let met = taken.cues().iter().map(number).collect();
            let path = [&self.path[..], &[step]].concat();
            uses.push((taken.label as usize, Copy { path, base, met }));
            base += blocks[taken.label as usize].total as u32;
        }
        uses
    }
}

#[cfg(test)]
mod tests {
    use super::*;
    use crate::gen::prng::Prng;
    use crate::gen::random;
    use crate::naive::ask::Show;

    /// The links of all copies with their origins; nothing where there are many copies.
    fn everything(show: &Show) -> Option<Vec<(Link, Origin)>> {
        let mut left = vec![(show.blocks.len() - 1, Copy::default())];
        let mut all = Vec::new();
        for _ in 0..2000 {
            let Some((k, copy)) = left.pop() else { return Some(all) };
            let links = copy.links(&show.blocks[k]);
            all.extend(links.map(|(link, row)| (link, copy.origin(row))));
            left.extend(copy.uses(&show.blocks, &show.blocks[k]));
        }
        None
    }

    /// Compares every pair with a look at everything; gives how many pairs are linked, and how many
    /// by several rows.
    fn compared(show: &Show, all: &[(Link, Origin)]) -> [usize; 2] {
        assert!(all.iter().all(|(link, _)| show.unfolding().links.contains(link)));
        let mut counts = [0; 2];
        for (s, t) in (1..=show.count()).flat_map(|s| (1..=show.count()).map(move |t| (s, t))) {
            let between = all.iter().filter(|(link, _)| (link.from, link.to) == (s, t));
            let mut rows: Vec<&Origin> = between.map(|(_, origin)| origin).collect();
            rows.sort();
            assert_eq!(origins(&show.blocks, s, t).first(), rows.first().copied());
            assert_eq!(rows.is_empty(), !show.unfolding().linked(s, true).contains(&t));
            counts[0] += usize::from(!rows.is_empty());
            counts[1] += usize::from(rows.len() > 1);
        }
        counts
    }

    #[test]
    fn the_first_of_all_rows_is_found() {
        let shapes = random::SHAPES.iter().chain([&random::TANGLED; 4]);
        let mut counts = [0; 2];
        for (shape, case) in shapes.cycle().zip(0..3000) {
            let rows = random::show(&mut Prng::new(31, case), shape);
            let show = Show::of_rows(&rows).expect("an accepted show");
            if let Some(all) = everything(&show) {
                let [linked, several] = compared(&show, &all);
                counts = [counts[0] + linked, counts[1] + several];
            }
        }
        assert!(counts[0] > 9000 && counts[1] > 3000, "linked, and by several rows: {counts:?}");
    }
}
