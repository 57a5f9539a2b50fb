//! Shows with a name.

use super::build::Build;
use crate::limits::{BLOCKS, COLUMNS};

/// Two blocks between two cues, and a link back.
pub fn ring() -> Vec<u32> {
    long_ring(2)
}

/// The ring with `blocks` blocks below the show, each twice as long as the one before.
pub fn long_ring(blocks: u32) -> Vec<u32> {
    ring_back(blocks, 2)
}

/// The long ring with this label for its link back.
pub fn ring_back(blocks: u32, label: u32) -> Vec<u32> {
    let mut build = Build::default();
    let mut below = build.open(2, 1);
    build.link(1, 1, 3);
    build.link(1, 2, 1);
    for _ in 1..blocks {
        let used = below;
        below = build.open(2, 1);
        build.take(used, &[1, 3]);
        build.take(used, &[2, 1]);
    }
    build.open(0, 2);
    build.link(label, 2, 1);
    build.take(below, &[1, 2]);
    build.numbers()
}

/// Each block holds one cue and the one before twice, at that cue; no links.
pub fn tower(blocks: u32) -> Vec<u32> {
    let mut build = Build::default();
    build.open(1, 1);
    for k in 1..blocks {
        let used = build.open(u32::from(k + 1 < blocks), 1) - 1;
        build.take(used, &[1]);
        build.take(used, &[1]);
    }
    build.numbers()
}

/// One link, copied more often than anyone could count.
pub fn knot() -> Vec<u32> {
    let mut build = Build::default();
    build.open(2, 0);
    build.link(1, 1, 2);
    for _ in 1..BLOCKS - 1 {
        let used = build.open(2, 0) - 1;
        build.take(used, &[1, 2]);
        build.take(used, &[1, 2]);
    }
    let used = build.open(0, 2) - 1;
    build.take(used, &[1, 2]);
    build.numbers()
}

/// One block of 255 cues with links until there are `rows` rows.
pub fn wide(rows: usize) -> Vec<u32> {
    let mut build = Build::default();
    build.open(0, 255);
    let pairs = (1..=255u32).flat_map(|from| (1..=5).map(move |step| (from, step)));
    let mut links: Vec<(u32, u32)> =
        pairs.map(|(from, step)| (from, (from + 49 * step) % 255 + 1)).collect();
    links.sort();
    links.dedup();
    for (from, to) in links.into_iter().filter(|(from, to)| from != to).take(rows - 1) {
        build.link(1, from, to);
    }
    build.numbers()
}

/// Copies inside each other, 127 deep, each with one cue linked to its join.
pub fn deep(outward: bool) -> Vec<u32> {
    let mut build = Build::default();
    for k in 0..BLOCKS as u32 {
        let joins = u32::from(k + 1 < BLOCKS as u32);
        build.open(joins, 1);
        if joins == 1 && outward {
            build.link(1, 2, 1);
        } else if joins == 1 {
            build.link(1, 1, 2);
        }
        if k > 0 {
            build.take(k - 1, &[1]);
        }
    }
    build.numbers()
}

/// One cue passed down 127 levels, with a cue linked to it on each.
pub fn deep_join() -> Vec<u32> {
    let mut build = Build::default();
    for k in 0..BLOCKS as u32 {
        let joins = u32::from(k + 1 < BLOCKS as u32);
        build.open(joins, 1);
        if joins == 1 {
            build.link(1, 1, 2);
            build.link(1, 2, 1);
        }
        if k > 0 {
            build.take(k - 1, &[1 + joins]);
        }
    }
    build.numbers()
}

/// Cue 1 is linked to all 2^levels - 1 others (outward), or they to it.
pub fn star(levels: u32, outward: bool) -> Vec<u32> {
    let mut build = Build::default();
    for k in 0..levels {
        build.open(1, 1);
        if outward {
            build.link(1, 2, 1);
        } else {
            build.link(1, 1, 2);
        }
        if k > 0 {
            build.take(k - 1, &[2]);
            build.take(k - 1, &[2]);
        }
    }
    build.open(0, 1);
    build.take(levels - 1, &[1]);
    build.numbers()
}

/// Blocks of eight joins and 255 own cues, a long chain through all of them.
pub fn full() -> Vec<u32> {
    let mut build = Build::default();
    let zigzag: Vec<u32> = (1..=263).map(|i| i * 50 % 263 + 1).collect();
    build.open(8, 255);
    build.chain(&zigzag);
    build.open(8, 255);
    build.chain(&zigzag[..200]);
    build.take(0, &[255, 256, 257, 258, 259, 260, 261, 262]);
    build.take(0, &[263, 262, 261, 260, 5, 4, 3, 2]);
    build.open(0, 255);
    build.take(1, &[1, 2, 3, 4, 5, 6, 7, 8]);
    build.take(0, &[8, 7, 6, 5, 4, 3, 2, 1]);
    build.numbers()
}

/// A cue linked to all eight joins of its block, and one they are linked to, met in
/// several orders.
pub fn all_joins() -> Vec<u32> {
    let mut build = Build::default();
    build.open(8, 2);
    (3..=10).for_each(|join| build.link(1, 1, join));
    (3..=10).for_each(|join| build.link(1, join, 2));
    build.open(0, 9);
    build.take(0, &[2, 9, 4, 7, 1, 8, 3, 6]);
    build.take(0, &[9, 8, 7, 6, 5, 4, 3, 2]);
    build.numbers()
}

/// A large show whose last block has one more own cue than the tower, so one too many.
pub fn tower_with_one_more() -> Vec<u32> {
    let mut rows = tower(31);
    let top = rows.len() - 3 * COLUMNS;
    rows[top + 3] += 1;
    rows
}

/// So many blocks of the tower, all with a join: block k has 2^(k + 1) - 1 cues, and opens at row
/// 3 k - 1 if it is not the first.
pub fn tower_below(blocks: u32) -> Build {
    let mut build = Build::default();
    build.open(1, 1);
    for k in 1..blocks {
        build.open(1, 1);
        build.take(k - 1, &[1]);
        build.take(k - 1, &[1]);
    }
    build
}

/// An unused block that is too large, below a show of one cue.
pub fn unused_tower() -> Vec<u32> {
    let mut build = tower_below(32);
    build.open(0, 1);
    build.numbers()
}

/// Blocks 0 to 29 lead both ways between two joins, blocks 30 to 60 also from their first
/// cue to a third join. Block 60 has as many cues as a block may have, and 2^31 steps from
/// join 1 to join 2 as well as from join 2 to join 3; block 61 uses it. A chain over both
/// has 2^32 steps, the fewest from join 1 to join 3 are 2.
pub fn trap() -> Build {
    let mut build = Build::default();
    for k in 0..30 {
        build.open(2, 1);
        both_ways(&mut build, k, &[(1, 2), (1, 3), (2, 1), (3, 1)]);
    }
    for k in 0..31 {
        build.open(3, 1);
        if k == 0 {
            both_ways(&mut build, 0, &[(1, 2), (1, 3), (1, 4), (2, 1), (3, 1)]);
        } else {
            build.take(k - 1, &[1, 3]);
            build.take(29 + k, &[2, 1, 4]);
        }
    }
    build.open(3, 0);
    build.take(60, &[1, 2, 3]);
    build
}

/// Links in the lowest block, two uses in the others.
fn both_ways(build: &mut Build, k: u32, links: &[(u32, u32)]) {
    if k == 0 {
        links.iter().for_each(|(from, to)| build.link(1, *from, *to));
    } else {
        build.take(k - 1, &[1, 3]);
        build.take(k - 1, &[2, 1]);
    }
}

/// The trap below a show of two linked cues.
pub fn trap_show() -> Vec<u32> {
    let mut build = trap();
    build.open(0, 2);
    build.link(1, 1, 2);
    build.numbers()
}

/// A block that takes the largest block of the trap twice, one behind the other.
pub fn trap_twice() -> Vec<u32> {
    let mut build = trap();
    build.open(2, 2);
    build.take(60, &[1, 4, 2]);
    build.take(60, &[3, 1, 2]);
    build.open(0, 1);
    build.numbers()
}

/// Blocks of eight joins, each with seven uses of the one before in other orders.
pub fn dense() -> Vec<u32> {
    let mut build = Build::default();
    build.open(8, 0);
    build.chain(&[1, 2, 3, 4, 5, 6, 7, 8]);
    for k in 0..BLOCKS as u32 - 1 {
        let last = k + 2 == BLOCKS as u32;
        build.open(if last { 0 } else { 8 }, if last { 8 } else { 0 });
        for turn in 0..7 {
            let cues: Vec<u32> = (0..8).map(|join| (join + turn) % 8 + 1).collect();
            build.take(k, &cues);
        }
    }
    build.numbers()
}

/// Four blocks of eight joins and a show, with links and uses to fill 1,024 rows.
pub fn five_blocks() -> Vec<u32> {
    let mut build = Build::default();
    build.open(8, 20);
    let pairs = (1..=28).flat_map(|from| (1..=28).map(move |to| (from, to)));
    for (from, to) in pairs.filter(|(from, to)| from != to).step_by(3).take(203) {
        build.link(1, from, to);
    }
    for k in 1..5u32 {
        let (joins, own) = if k == 4 { (0, 255) } else { (8, 247) };
        build.open(joins, own);
        let chain: Vec<u32> = (0..=104).map(|i| i * 77 % 255 + 1).collect();
        build.chain(&chain);
        for turn in 0..100 {
            let cues: Vec<u32> = (0..8).map(|join| (2 * turn + 31 * join) % 255 + 1).collect();
            let used = if k == 4 { turn.saturating_sub(96) } else { 0 };
            build.take(used, &cues);
        }
        build.sort_uses();
    }
    build.numbers()
}

/// A chain through 255 cues against the order of the links.
pub fn bad_order() -> Vec<u32> {
    let mut build = Build::default();
    build.open(0, 255);
    let chain: Vec<u32> = (1..=255).rev().collect();
    build.chain(&chain);
    build.numbers()
}

/// A show of so many cues, each linked to the next of its block, with labels from 1 to 255
/// in turn. At least 255 cues.
pub fn labelled(cues: u32) -> Vec<u32> {
    let mut build = Build::default();
    build.open(1, 245);
    for cue in 1..245 {
        build.link(cue % 255 + 1, cue, cue + 1);
    }
    build.link(255, 245, 246);
    let copies = (cues - 10) / 245;
    build.open(0, cues - 245 * copies);
    for copy in 1..=copies {
        build.take(0, &[copy]);
    }
    build.numbers()
}

/// A show of 1,000 cues with some millions of different links: every pair of eight cues has
/// all 255 labels, for many sets of eight.
pub fn millions() -> Vec<u32> {
    let mut build = Build::default();
    build.open(2, 0);
    for label in 1..=255 {
        build.link(label, 1, 2);
    }
    build.open(8, 0);
    for from in 1..=8 {
        for to in (1..=8).filter(|&to| to != from) {
            build.take(0, &[from, to]);
        }
    }
    build.open(1, 240);
    for slope in 0..5 {
        for start in 1..=30 {
            let cues: Vec<u32> =
                (0..8).map(|k| 30 * k + (start - 1 + slope * k) % 30 + 1).collect();
            build.take(1, &cues);
        }
    }
    build.sort_uses();
    build.open(0, 40);
    for copy in 1..=4 {
        build.take(2, &[copy]);
    }
    build.numbers()
}
