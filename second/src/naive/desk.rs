//! The blocks that come with the desk, and the second way of reading.

use super::check::check;
use super::file::parse;
use crate::limits::{Refusal, Row, DESK_BLOCKS, DESK_ROWS, ROWS};

/// The rows of all blocks that come with the desk.
pub fn table() -> Vec<Row> {
    (0..DESK_BLOCKS as u32).flat_map(block).collect()
}

/// The rows of block k: its own cues are one more than its number, and it has two joins.
fn block(k: u32) -> Vec<Row> {
    let own = k + 1;
    let mut rows = vec![[k, 0, 2, own, 0, 0, 0, 0, 0, 0, 0]];
    rows.extend(links(own).into_iter().map(|(a, b)| [k, 1, 1, a, b, 0, 0, 0, 0, 0, 0]));
    rows
}

/// The links that make it a run: in by the first join, along the own cues, out by the second join. They
/// are sorted, as links of a block have to rise.
fn links(own: u32) -> Vec<(u32, u32)> {
    let (first_join, second_join) = (own + 1, own + 2);
    let mut links = vec![(first_join, 1)];
    links.extend((1..own).map(|cue| (cue, cue + 1)));
    links.push((own, second_join));
    links.sort();
    links
}

/// The numbers of all rows of a file that is read the second way: those of the desk and then its
/// own, or the first of the refusals 1 to 10.
pub fn read(file: &[u8]) -> Result<Vec<u32>, Refusal> {
    let own = parse(file)?;
    let all = [table(), own.clone()].concat();
    let Some(first) = own.first().filter(|_| all.len() <= ROWS) else {
        return Err(Refusal::new(4, 0));
    };
    if first[..2] != [DESK_BLOCKS as u32, 0] {
        return Err(Refusal::new(5, 2));
    }
    let numbers = all.concat();
    check(&numbers).map_err(at_own_line)?;
    Ok(numbers)
}

/// The refusal of a row by the line of the file: the first row behind those of the desk is line 2.
fn at_own_line(refusal: Refusal) -> Refusal {
    Refusal::new(refusal.number, refusal.place as usize + 1 - DESK_ROWS)
}
