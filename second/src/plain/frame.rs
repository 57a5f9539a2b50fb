//! A copy as the rows of its block see it.

use super::check::{Copy, Show, Step};
use crate::limits::JOINS;

/// A copy with the numbers that its joins meet.
pub struct Frame {
    pub copy: Copy,
    pub met: [u32; JOINS],
}

impl Frame {
    /// The copy that owns cue n. Each step down to it is told.
    pub fn owning(show: &Show, n: u32, mut told: impl FnMut(&Step)) -> Frame {
        let mut frame = Frame { copy: show.top(), met: [0; JOINS] };
        while let Some(step) = show.below(frame.copy, n) {
            told(&step);
            frame.enter(show, &step);
        }
        frame
    }

    fn enter(&mut self, show: &Show, step: &Step) {
        let own = u32::from(show.blocks[self.copy.block].own);
        let above = self.met;
        for (number, cue) in self.met.iter_mut().zip(&show.rows[step.row][3..]) {
            *number = match cue.checked_sub(own + 1) {
                None => self.copy.base + cue,
                Some(join) => above[join as usize % JOINS],
            };
        }
        self.copy = step.copy;
    }

    /// The cue of the block that has number n here, an own cue or a join.
    pub fn cue(&self, show: &Show, n: u32) -> Option<u32> {
        let block = &show.blocks[self.copy.block];
        let own = u32::from(block.own);
        let cue = n.wrapping_sub(self.copy.base);
        if cue.wrapping_sub(1) < own {
            return Some(cue);
        }
        let mut met = self.met.iter().take(block.joins.into());
        met.position(|met| *met == n).map(|join| own + 1 + join as u32)
    }
}
