//! The fewest steps between two cues: each link counts for one.

use super::check::EMPTY;
use super::search::{smallest, Sum};
use super::{checked, is_cue};
use crate::limits::{Refusal, STRIDE, WORK};

pub fn fewest(
    rows: &[u32],
    s: u32,
    t: u32,
    work: &mut [u32],
    given: &mut [u32],
) -> Result<(), Refusal> {
    let mut room = EMPTY;
    let show = checked(rows, &mut room, work.len() >= WORK, given)?;
    is_cue(&show, s)?;
    is_cue(&show, t)?;
    let (sums, rest) = work[..WORK].split_at_mut(STRIDE * show.count);
    rest.fill(0);
    let steps = smallest(&show, |_| 1, s, t, sums);
    let found = steps != Sum::NONE;
    given[..2].copy_from_slice(&[found.into(), if found { steps } else { 0 }]);
    Ok(())
}
