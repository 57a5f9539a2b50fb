//! Where a cue stands, and which number it has.

use super::check::EMPTY;
use super::{checked, is_cue};
use crate::limits::{Refusal, PATH};

pub fn locate(rows: &[u32], n: u32, path: &mut [u32], given: &mut [u32]) -> Result<(), Refusal> {
    let mut room = EMPTY;
    let show = checked(rows, &mut room, path.len() >= PATH, given)?;
    is_cue(&show, n)?;
    let mut copy = show.top();
    let mut depth = 0;
    while let Some(step) = show.below(copy, n) {
        path[depth] = step.position;
        depth += 1;
        copy = step.copy;
    }
    given[..3].copy_from_slice(&[depth as u32, copy.block as u32, n - copy.base]);
    Ok(())
}

pub fn number(rows: &[u32], path: &[u32], own: u32, given: &mut [u32]) -> Result<(), Refusal> {
    const BAD_PATH: Refusal = Refusal { number: 13, place: 0 };
    let mut room = EMPTY;
    let show = checked(rows, &mut room, true, given)?;
    let (mut block, mut base) = (&show.blocks[show.count - 1], 0);
    for step in path {
        let uses = show.uses(block);
        let before = (*step as usize).wrapping_sub(1);
        let row = uses.get(before).ok_or(BAD_PATH)?;
        base += u32::from(block.own);
        base += uses[..before].iter().map(|earlier| show.used(earlier).total).sum::<u32>();
        block = show.used(row);
    }
    if own == 0 || own > u32::from(block.own) {
        return Err(BAD_PATH);
    }
    given[0] = base + own;
    Ok(())
}
