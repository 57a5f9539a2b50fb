//! The blocks that come with the desk, and reading a file behind them.

use super::codec::{hand_out, parse};
use crate::limits::{Refusal, Row, COLUMNS, DESK_BLOCKS, DESK_ROWS, OWN_ROWS, ROWS};

/// The rows of the desk.
static TABLE: [Row; DESK_ROWS] = table();

/// Each block: its opening, a link on from each own cue, and one from its first join.
const fn table() -> [Row; DESK_ROWS] {
    let mut rows = [[0; COLUMNS]; DESK_ROWS];
    let (mut block, mut next) = (0, 0);
    while block < DESK_BLOCKS as u32 {
        let own = block + 1;
        rows[next] = row(block, [0, 2, own, 0]);
        let mut cue = 1;
        while cue < own {
            rows[next + cue as usize] = row(block, [1, 1, cue, cue + 1]);
            cue += 1;
        }
        rows[next + own as usize] = row(block, [1, 1, own, own + 2]);
        rows[next + own as usize + 1] = row(block, [1, 1, own + 1, 1]);
        next += own as usize + 2;
        block += 1;
    }
    rows
}

/// A row by its kind, label, a and b.
const fn row(block: u32, [kind, label, a, b]: [u32; 4]) -> Row {
    [block, kind, label, a, b, 0, 0, 0, 0, 0, 0]
}

/// The file's rows are moved up, and those of the desk put before them.
pub fn read(file: &[u8], rows: &mut [u32], given: &mut [u32]) -> Result<(), Refusal> {
    let mut all = [[0; COLUMNS]; ROWS];
    let count = parse(file, &mut all)?;
    if count == 0 || count > OWN_ROWS {
        return Err(Refusal { number: 4, place: 0 });
    }
    if all[0][..2] != [DESK_BLOCKS as u32, 0] {
        return Err(Refusal { number: 5, place: 2 });
    }
    all.copy_within(..count, DESK_ROWS);
    all[..DESK_ROWS].copy_from_slice(&TABLE);
    hand_out(&all[..DESK_ROWS + count], rows, given).map_err(at_own_line)
}

/// A refusal of a row, at its line in the file; others have no row.
fn at_own_line(refusal: Refusal) -> Refusal {
    let line = (refusal.place + 1).saturating_sub(DESK_ROWS as u32);
    Refusal { place: line, ..refusal }
}
