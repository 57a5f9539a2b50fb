//! What the unfolding program prints.

use std::fmt::Write;

use super::check::{check, Block};
use super::file::parse;
use super::unfold::unfold;
use crate::limits::Refusal;

/// With more cues the links are not printed.
pub const MOST_CUES: u64 = 1000;

/// The blocks of a file; a refused row is named by its line.
pub fn blocks_of(file: &[u8]) -> Result<Vec<Block>, Refusal> {
    let numbers = parse(file)?.concat();
    check(&numbers).map_err(at_line)
}

/// The refusal of lent rows as reading gives it: row r is line r + 1.
pub fn at_line(refusal: Refusal) -> Refusal {
    let rows_named = refusal.number > 4;
    Refusal { place: refusal.place + u32::from(rows_named), ..refusal }
}

/// The text for a show file: its links, its count, or its refusal.
pub fn printed(file: &[u8]) -> String {
    match blocks_of(file) {
        Err(refusal) => format!("refusal,place\n{},{}\n", refusal.number, refusal.place),
        Ok(blocks) => shown(&blocks),
    }
}

fn shown(blocks: &[Block]) -> String {
    let show = blocks.len() - 1;
    if blocks[show].total > MOST_CUES {
        return format!("cues\n{}\n", blocks[show].total);
    }
    let mut text = String::from("from,to,label\n");
    for link in &unfold(blocks, show).links {
        writeln!(text, "{},{},{}", link.from, link.to, link.label).expect("text grows");
    }
    text
}
