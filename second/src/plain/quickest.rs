//! The quickest way between two cues: each link counts for the wait of its label.

use super::check::EMPTY;
use super::codec::value;
use super::search::{smallest, Sum};
use super::{checked, is_cue};
use crate::limits::{Refusal, FOLLOWED, GIVEN, STRIDE, WAIT, WAIT_NAMES, WORK};

/// The wait of each label; more places than labels, so that no index is outside.
type Waits = [u64; 256];

pub fn quickest(
    rows: &[u32],
    s: u32,
    t: u32,
    file: &[u8],
    work: &mut [u64],
    given: &mut [u32],
) -> Result<(), Refusal> {
    let mut room = EMPTY;
    let show = checked(rows, &mut room, work.len() >= WORK, given)?;
    is_cue(&show, s)?;
    is_cue(&show, t)?;
    let waits = waits(file)?;
    let price = |label: u32| waits[label as usize % 256];
    let sum = smallest(&show, price, s, t, &mut work[..STRIDE * show.count]);
    work[..WORK].fill(0);
    let found = sum != Sum::NONE;
    let tenths = if found { sum } else { 0 };
    given[..GIVEN].copy_from_slice(&[found.into(), tenths as u32, (tenths >> 32) as u32]);
    Ok(())
}

/// The waits of a file, in one pass: the first line of each kind of refusal is remembered.
fn waits(file: &[u8]) -> Result<Waits, Refusal> {
    let mut waits = [0; 256];
    let Some(mut rest) = file.strip_prefix(WAIT_NAMES) else {
        return Err(Refusal::at_line(15, 1));
    };
    let (mut line, mut before, mut outside, mut low) = (1u64, 0, None, None);
    while !rest.is_empty() {
        line += 1;
        let malformed = || Refusal::at_line(15, line);
        let (label, behind) = value(rest, b',').ok_or_else(malformed)?;
        let (wait, behind) = value(behind, b'\n').ok_or_else(malformed)?;
        rest = behind;
        if label.wrapping_sub(1) >= FOLLOWED || wait > WAIT {
            outside = outside.or(Some(line));
        }
        if label <= before {
            low = low.or(Some(line));
        }
        before = label;
        waits[label as usize % 256] = wait.into();
    }
    match (outside, low) {
        (Some(line), _) => Err(Refusal::at_line(16, line)),
        (None, Some(line)) => Err(Refusal::at_line(17, line)),
        (None, None) => Ok(waits),
    }
}
