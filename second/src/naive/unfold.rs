//! Unfolding: a use is taken out and a fresh copy put in, until no use is left.

use std::collections::{BTreeSet, HashSet, VecDeque};

use super::check::{Block, Link};
use super::waits::Waits;

/// A numbered cue: where its copy stands and which own cue of its block it is.
#[derive(Clone, Debug, PartialEq, Eq)]
pub struct Cue {
    pub path: Vec<u32>,
    pub block: u32,
    pub own: u32,
}

/// What is left when all uses are replaced. Cue n stands at place n - 1.
#[derive(Clone, Debug, Default)]
pub struct Unfolding {
    pub cues: Vec<Cue>,
    pub links: BTreeSet<Link>,
    out: Vec<BTreeSet<u32>>,
    into: Vec<BTreeSet<u32>>,
    followed: Vec<BTreeSet<u32>>,
}

/// A copy still to be put in: its block, the cues its joins meet, its place.
struct Copy {
    block: usize,
    met: Vec<u32>,
    path: Vec<u32>,
}

/// Unfolds block k alone. Its joins are numbered after its cues.
pub fn unfold(blocks: &[Block], k: usize) -> Unfolding {
    let total = blocks[k].total as u32;
    let met: Vec<u32> = (1..=blocks[k].joins).map(|join| total + join).collect();
    let nodes = total as usize + met.len();
    let mut left = VecDeque::from([Copy { block: k, met, path: Vec::new() }]);
    let mut unfolding = Unfolding::default();
    let mut seen = HashSet::new();
    while let Some(copy) = left.pop_front() {
        // A second copy with no cues of its own between the same cues adds nothing.
        let no_cues = blocks[copy.block].total == 0;
        if no_cues && !seen.insert((copy.block, copy.met.clone())) {
            continue;
        }
        let uses = unfolding.put_in(&blocks[copy.block], &copy);
        for inner in uses.into_iter().rev() {
            left.push_front(inner);
        }
    }
    unfolding.join_up(nodes);
    unfolding
}

impl Unfolding {
    /// Numbers the copy's own cues, adds its links, and gives its uses in order.
    fn put_in(&mut self, block: &Block, copy: &Copy) -> Vec<Copy> {
        let base = self.cues.len() as u32;
        for own in 1..=block.own {
            let (path, block) = (copy.path.clone(), copy.block as u32);
            self.cues.push(Cue { path, block, own });
        }
        let number = |cue: u32| block.number(base, &copy.met, cue);
        for link in &block.links {
            let (from, to) = (number(link.from), number(link.to));
            self.links.insert(Link { from, to, label: link.label });
        }
        let inner = block.uses.iter().zip(1..).map(|(taken, step)| Copy {
            block: taken.label as usize,
            met: taken.cues().iter().map(|cue| number(*cue)).collect(),
            path: [&copy.path[..], &[step]].concat(),
        });
        inner.collect()
    }

    /// Collects the linked cues of every cue, both ways, and those that a chain goes on to.
    fn join_up(&mut self, nodes: usize) {
        self.out = vec![BTreeSet::new(); nodes + 1];
        self.into = self.out.clone();
        self.followed = self.out.clone();
        for link in &self.links {
            self.out[link.from as usize].insert(link.to);
            self.into[link.to as usize].insert(link.from);
            if link.is_followed() {
                self.followed[link.from as usize].insert(link.to);
            }
        }
    }

    /// The cues that v has a follow-on to (outward), or that have one to v.
    pub fn linked(&self, v: u32, outward: bool) -> &BTreeSet<u32> {
        let side = if outward { &self.out } else { &self.into };
        &side[v as usize]
    }

    /// The length of a shortest chain from s to every cue, breadth first. No chain has a note.
    pub fn steps_from(&self, s: u32) -> Vec<Option<u32>> {
        let mut steps = vec![None; self.out.len()];
        steps[s as usize] = Some(0);
        let mut edge = vec![s];
        for length in 1.. {
            let mut next = Vec::new();
            for to in edge.iter().flat_map(|cue| &self.followed[*cue as usize]) {
                if steps[*to as usize].is_none() {
                    steps[*to as usize] = Some(length);
                    next.push(*to);
                }
            }
            if next.is_empty() {
                break;
            }
            edge = next;
        }
        steps
    }

    /// The smallest sum of waits over all chains from s to every cue: sums are lowered along one link
    /// after the other, again and again, until no link lowers one. No chain has a note.
    pub fn sums_from(&self, s: u32, waits: &Waits) -> Vec<Option<u64>> {
        let mut sums = vec![None; self.out.len()];
        sums[s as usize] = Some(0);
        let mut lowered = true;
        while lowered {
            lowered = false;
            for link in self.links.iter().filter(|link| link.is_followed()) {
                let Some(before) = sums[link.from as usize] else { continue };
                let (sum, known) = (before + waits.of(link.label), sums[link.to as usize]);
                if known.is_none_or(|known| sum < known) {
                    sums[link.to as usize] = Some(sum);
                    lowered = true;
                }
            }
        }
        sums
    }
}
