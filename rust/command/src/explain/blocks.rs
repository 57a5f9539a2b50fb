//! Refusals 9 and 10: each block as a whole, and how many cues it stands for.

use show::MAX_CUES;

use super::{Cause, Column, Explained, Fault};
use crate::blocks::{of_rows, Block, Row};
use crate::way::Way;
use crate::words::Grouped;

/// What is wrong first in rows of a file that pass checks 4 to 8. The blocks of the desk are never wrong.
pub fn checked(rows: &[Row], way: Way) -> Option<Explained> {
    let blocks = of_rows(&[&way.rows_before(), rows].concat());
    let numbered = || blocks.iter().enumerate();
    let last = blocks.len().saturating_sub(1);
    let at = |block: &Block, fault| Some(Explained::at(way.line(block.row)?, fault));
    let cannot_stand = numbered().find_map(|(k, block)| at(block, cannot_stand(block, k == last)?));
    cannot_stand.or_else(|| numbered().find_map(|(k, block)| at(block, too_large(block, k)?)))
}

/// Check 9: the last block is the show, and every other can be used.
fn cannot_stand(block: &Block, last: bool) -> Option<Fault> {
    match (block.joins, block.own) {
        (0, _) if !last => Some((Some(Column::LABEL), Cause::NoJoins {})),
        (joins, _) if last && joins > 0 => Some((Some(Column::LABEL), Cause::ShowJoins { joins })),
        (_, 0) if last => Some((Some(Column::A), Cause::ShowOwn {})),
        _ => None,
    }
}

/// Check 10: a total over the limit.
fn too_large(block: &Block, k: usize) -> Option<Fault> {
    let cause = Cause::Total { block: k, total: Grouped(block.total) };
    (block.total > MAX_CUES.into()).then_some((None, cause))
}
