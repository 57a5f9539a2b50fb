//! Refusals 12 to 14: a cue number, a path and an own cue, or a link, that the show does not have.

use show::PATH_LEN;

use super::{Cause, Explained};
use crate::blocks::{of_rows, Row};

/// The first of these that is no cue of a show with so many.
pub fn cue(cues: &[u32], count: u32) -> Option<Explained> {
    let cue = *cues.iter().find(|cue| !(1..=count).contains(cue))?;
    Some(Explained::of(Cause::NoCue { cue, count }))
}

/// That no link leads from s to t; whether one leads back is known.
pub fn link(s: u32, t: u32, back: bool) -> Explained {
    Explained::of(match back {
        _ if s == t => Cause::Loop { cue: s },
        true => Cause::LinkBack { s, t },
        false => Cause::NoLink { s, t },
    })
}

/// Where a path leads out of the show, or that it has no such own cue at its end.
pub fn path(rows: &[Row], path: &[u32], own: u32) -> Option<Explained> {
    followed(rows, path, own).map(Explained::of)
}

fn followed(rows: &[Row], path: &[u32], own: u32) -> Option<Cause> {
    if path.len() > PATH_LEN {
        return Some(Cause::LongPath { steps: path.len() });
    }
    let blocks = of_rows(rows);
    let mut block = blocks.len().checked_sub(1)?;
    for (&step, place) in path.iter().zip(1..) {
        let uses = &blocks[block].uses;
        let taken = (step as usize).checked_sub(1).and_then(|step| uses.get(step));
        match taken {
            Some(taken) => block = taken.block,
            None if uses.is_empty() => return Some(Cause::NoUses { place, step, block }),
            None => return Some(Cause::NoUse { place, step, block, uses: uses.len() }),
        }
    }
    match blocks[block].own {
        most if (1..=most).contains(&own) => None,
        0 => Some(Cause::NoOwn { own, block }),
        most => Some(Cause::NotOwn { own, block, most }),
    }
}
