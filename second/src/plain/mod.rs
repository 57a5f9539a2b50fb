//! A quick implementation in plain Rust, with no heap and no proof: what the library is
//! raced against. Each function has the shape of its C function.

mod check;
mod codec;
mod cues;
mod desk;
mod fewest;
mod frame;
mod lists;
mod quickest;
mod row;
mod search;

use crate::limits::{returned, Refusal, Row, GIVEN};
use check::{Room, Show, EMPTY};

/// Reads a file; given: rows, blocks, cues.
pub fn read(file: &[u8], rows: &mut [u32], given: &mut [u32]) -> u64 {
    returned(codec::read(file, rows, given))
}

/// Reads a file behind the rows of the desk; given: rows, blocks, cues.
pub fn read_desk(file: &[u8], rows: &mut [u32], given: &mut [u32]) -> u64 {
    returned(desk::read(file, rows, given))
}

/// Writes rows as a file; given: length.
pub fn write(rows: &[u32], out: &mut [u8], given: &mut [u32]) -> u64 {
    returned(codec::write(rows, out, given))
}

/// Counts cues; given: cues.
pub fn count(rows: &[u32], given: &mut [u32]) -> u64 {
    let mut room = EMPTY;
    returned(checked(rows, &mut room, true, given).map(|show| given[0] = show.cues()))
}

/// Finds cue n; given: depth, block, own cue.
pub fn locate(rows: &[u32], n: u32, path: &mut [u32], given: &mut [u32]) -> u64 {
    returned(cues::locate(rows, n, path, given))
}

/// Numbers the own cue at the end of a path; given: number.
pub fn number(rows: &[u32], path: &[u32], own: u32, given: &mut [u32]) -> u64 {
    returned(cues::number(rows, path, own, given))
}

/// The cues that v leads to, after n; given: written, more.
pub fn list_out(rows: &[u32], v: u32, n: u32, page: &mut [u32], given: &mut [u32]) -> u64 {
    returned(lists::list::<true>(rows, v, n, page, given))
}

/// The cues that lead to v, after n; given: written, more.
pub fn list_in(rows: &[u32], v: u32, n: u32, page: &mut [u32], given: &mut [u32]) -> u64 {
    returned(lists::list::<false>(rows, v, n, page, given))
}

/// The fewest steps from s to t; given: found, steps.
pub fn fewest(rows: &[u32], s: u32, t: u32, work: &mut [u32], given: &mut [u32]) -> u64 {
    returned(fewest::fewest(rows, s, t, work, given))
}

/// The row behind a link from s to t; given: row, depth.
pub fn row(rows: &[u32], s: u32, t: u32, path: &mut [u32], given: &mut [u32]) -> u64 {
    returned(row::row(rows, s, t, path, given))
}

/// The smallest sum of waits from s to t; given: found, low and high half of the sum.
pub fn quickest(
    rows: &[u32],
    s: u32,
    t: u32,
    waits: &[u8],
    work: &mut [u64],
    given: &mut [u32],
) -> u64 {
    returned(quickest::quickest(rows, s, t, waits, work, given))
}

/// The show in lent rows, once there is room for the answer.
fn checked<'a>(
    rows: &'a [u32],
    room: &'a mut Room,
    fits: bool,
    given: &[u32],
) -> Result<Show<'a>, Refusal> {
    let show = Show::of(rows, room)?;
    if !fits || given.len() < GIVEN {
        return Err(Refusal { number: 11, place: 0 });
    }
    Ok(show)
}

/// Refusal 12 unless n is the number of a cue.
fn is_cue(show: &Show, n: u32) -> Result<(), Refusal> {
    if n == 0 || n > show.cues() {
        return Err(Refusal { number: 12, place: 0 });
    }
    Ok(())
}

/// The column of a use that names the cue.
fn column(row: &Row, cue: u32) -> Option<usize> {
    row[3..].iter().position(|named| *named == cue)
}
