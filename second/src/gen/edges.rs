//! Every small change of a show or a file, in order, so that no limit goes untried.

use super::build::Build;
use super::{known, padding};
use crate::limits::{Row, BLOCKS, COLUMNS, JOINS};

/// Values around every limit.
const VALUES: [u32; 19] = [
    0, 1, 2, 3, 4, 8, 9, 127, 128, 254, 255, 256, 263, 264, 65_535, 65_536, 65_537, 0x80000000,
    0xFFFFFFFF,
];
/// Bytes that could be taken for others.
const BYTES: &[u8] = b"\r\n ,+-./:019a\0\t\xFF";
/// Values of one to seven digits, padded and not.
const TEXTS: [&str; 24] = [
    "0", "00", "000", "0000", "00000", "000000", "0000000", "1", "01", "00001", "000001", "00255",
    "00256", "000256", "256", "65535", "065535", "0065535", "65536", "065536", "99999", "099999",
    "100000", "010000",
];

/// Small shows that stand close to many limits.
pub fn bases() -> Vec<Vec<u32>> {
    vec![known::ring(), unused_block(), full_block(), three_labels(), known::tower(3)]
}

/// A block that nothing is in, and a show of one cue.
fn unused_block() -> Vec<u32> {
    let mut build = Build::default();
    build.open(8, 0);
    build.open(0, 1);
    build.numbers()
}

/// The most joins and own cues, with links and a use at the last of them.
fn full_block() -> Vec<u32> {
    let mut build = Build::default();
    build.open(8, 255);
    build.link(255, 1, 263);
    build.link(1, 262, 263);
    build.link(255, 262, 263);
    build.open(8, 255);
    build.take(0, &[255, 256, 257, 258, 259, 260, 261, 263]);
    build.take(0, &[263, 262, 261, 260, 259, 258, 257, 1]);
    build.open(0, 255);
    build.take(1, &[1, 2, 3, 4, 5, 6, 7, 255]);
    build.numbers()
}

/// Three blocks that can be used at the same cues, one of them twice.
fn three_labels() -> Vec<u32> {
    let mut build = Build::default();
    for _ in 0..3 {
        build.open(2, 0);
        build.link(1, 1, 2);
    }
    build.open(0, 3);
    for label in [0, 1, 1, 2] {
        build.take(label, &[1, 2]);
    }
    build.take(0, &[1, 3]);
    build.numbers()
}

/// Blocks without rows, and a show: `blocks` in all.
pub fn many_blocks(blocks: u32) -> Vec<u32> {
    let mut build = Build::default();
    for k in 1..=blocks {
        build.open(u32::from(k < blocks), u32::from(k == blocks));
    }
    build.numbers()
}

/// The show itself and all that differ from it by one number or one row.
pub fn near_rows(base: &[u32]) -> Vec<Vec<u32>> {
    let mut all = vec![base.to_vec()];
    for place in 0..base.len() {
        let near = [base[place].wrapping_sub(1), base[place].wrapping_add(1)];
        for value in VALUES.into_iter().chain(near) {
            let mut rows = base.to_vec();
            rows[place] = value;
            all.push(rows);
        }
    }
    let (rows, _) = base.as_chunks::<COLUMNS>();
    for place in 0..=rows.len() {
        let (before, after) = rows.split_at(place);
        all.extend(odd_rows(before).map(|row| [before, &[row], after].concat().concat()));
        all.push([before, after.get(1..).unwrap_or(&[])].concat().concat());
        for other in place + 1..rows.len() {
            let mut rows = rows.to_vec();
            rows.swap(place, other);
            all.push(rows.concat());
        }
    }
    all.extend((0..base.len()).map(|length| base[..length].to_vec()));
    all
}

/// Rows that might be put in after these.
fn odd_rows(before: &[Row]) -> impl Iterator<Item = Row> {
    let block = before.last().map_or(0, |row| row[0]);
    let blocks = [block.wrapping_sub(1), block, block + 1, BLOCKS as u32];
    let kinds = blocks.into_iter().flat_map(|block| (0..4).map(move |kind| (block, kind)));
    kinds.flat_map(|(block, kind)| {
        let labels = [0, 1, block.wrapping_sub(1), block, block.wrapping_add(1)];
        labels.into_iter().flat_map(move |label| {
            [[0; 2], [1, 0], [1, 1], [1, 2], [2, 1]].map(|[a, b]| {
                let mut row = [0; 3 + JOINS];
                row[..5].copy_from_slice(&[block, kind, label, a, b]);
                row
            })
        })
    })
}

/// The file itself, its beginnings, and all that differ from it by one byte.
pub fn near_files(file: &[u8]) -> Vec<Vec<u8>> {
    let mut all: Vec<Vec<u8>> = (0..=file.len()).map(|length| file[..length].to_vec()).collect();
    for place in 0..=file.len() {
        let (before, after) = file.split_at(place);
        let rest = after.get(1..).unwrap_or(&[]);
        all.push([before, rest].concat());
        for byte in BYTES {
            all.push([before, &[*byte], after].concat());
            all.push([before, &[*byte], rest].concat());
        }
    }
    all
}

/// All files that differ from this one by one value, in any column of the first, a middle or
/// the last line: with up to six zeros before it, and as one of the texts.
pub fn near_values(file: &[u8]) -> Vec<Vec<u8>> {
    let values = padding::values(file);
    let (lines, _) = values.as_chunks::<COLUMNS>();
    let mut all = Vec::new();
    for line in [0, lines.len() / 2, lines.len() - 1] {
        for (begin, end) in lines[line] {
            let (before, value, after) = (&file[..begin], &file[begin..end], &file[end..]);
            all.extend((1..=6).map(|zeros| [before, &b"000000"[..zeros], value, after].concat()));
            all.extend(TEXTS.map(|text| [before, text.as_bytes(), after].concat()));
        }
    }
    all
}
