//! Shows in which a link can come from many rows.

use super::build::Build;
use crate::limits::BLOCKS;

/// Two equal uses and a third one, each with a cue between two joins and a link past it.
pub fn equal_uses() -> Vec<u32> {
    let mut build = Build::default();
    build.open(2, 1);
    build.link(1, 1, 3);
    build.link(1, 2, 1);
    build.link(1, 2, 3);
    build.open(0, 3);
    build.take(0, &[1, 2]);
    build.take(0, &[1, 2]);
    build.take(0, &[2, 3]);
    build.numbers()
}

/// Links of one label and of several between the same cues, in the show and on two levels below.
pub fn several_labels() -> Vec<u32> {
    let mut build = Build::default();
    build.open(2, 0);
    [3, 7, 255].into_iter().for_each(|label| build.link(label, 1, 2));
    build.link(255, 2, 1);
    build.open(2, 0);
    build.link(3, 2, 1);
    build.take(0, &[1, 2]);
    build.open(0, 3);
    [7, 9].into_iter().for_each(|label| build.link(label, 2, 1));
    build.link(3, 2, 3);
    build.take(0, &[1, 2]);
    build.take(1, &[1, 2]);
    build.take(1, &[1, 3]);
    build.take(0, &[2, 3]);
    build.numbers()
}

/// The first use that leads to a link is a detour: the second is a step shorter, and so is the
/// third, which is equal to it.
pub fn detour() -> Vec<u32> {
    let mut build = Build::default();
    build.open(2, 0);
    build.link(1, 1, 2);
    build.open(2, 0);
    build.take(0, &[1, 2]);
    build.open(2, 0);
    build.link(1, 1, 2);
    build.open(2, 1);
    build.take(1, &[2, 3]);
    build.take(2, &[2, 3]);
    build.take(2, &[2, 3]);
    build.open(0, 2);
    build.take(3, &[1, 2]);
    build.take(3, &[2, 1]);
    build.numbers()
}

/// All pairs of eight joins are linked two levels down, where they stand in the other order.
pub fn eight_joins() -> Vec<u32> {
    let mut build = Build::default();
    build.open(8, 0);
    for (from, to) in (1..=8).flat_map(|from| (1..=8).map(move |to| (from, to))) {
        if from != to {
            build.link(1, from, to);
        }
    }
    build.open(8, 0);
    build.take(0, &[8, 7, 6, 5, 4, 3, 2, 1]);
    build.open(0, 8);
    build.take(1, &[1, 2, 3, 4, 5, 6, 7, 8]);
    build.numbers()
}

/// The knot with the second use of each block turned round. An odd number of turns leads from
/// cue 2 to cue 1, an even one from 1 to 2.
pub fn turned_knot() -> Vec<u32> {
    let mut build = Build::default();
    build.open(2, 0);
    build.link(1, 1, 2);
    for used in 0..BLOCKS as u32 - 2 {
        build.open(2, 0);
        build.take(used, &[1, 2]);
        build.take(used, &[2, 1]);
    }
    let used = build.open(0, 2) - 1;
    build.take(used, &[1, 2]);
    build.numbers()
}

/// Each block uses the one before and then one half as high, so that ways of 7 to 127 steps lead
/// to the one link. The first use is on the longest of them; only in block 1 is it on the shortest.
pub fn short_cuts() -> Vec<u32> {
    let mut build = Build::default();
    build.open(4, 0);
    build.link(1, 1, 2);
    for k in 1..BLOCKS as u32 {
        let last = k + 1 == BLOCKS as u32;
        build.open(if last { 0 } else { 4 }, if last { 4 } else { 0 });
        build.take(k - 1, &[1, 2, 3, 4]);
        build.take(k / 2, &[1, 2, 4, 3]);
    }
    build.numbers()
}

/// Most uses of the show lead nowhere; the last two lead to the last link of a long block.
pub fn late_use() -> Vec<u32> {
    let mut build = Build::default();
    build.open(2, 255);
    for cue in 1..255 {
        build.link(1, cue, cue + 1);
        build.link(2, cue, cue + 1);
    }
    build.link(1, 256, 257);
    build.open(2, 0);
    build.open(0, 2);
    for _ in 0..500 {
        build.take(1, &[1, 2]);
    }
    build.take(0, &[2, 1]);
    build.take(0, &[2, 1]);
    build.numbers()
}

/// A cue passed down 127 levels and one that joins it half way: the only link between the two
/// stands in the lowest copy.
pub fn half_way() -> Vec<u32> {
    let (last, half) = (BLOCKS as u32 - 1, BLOCKS as u32 / 2);
    let mut build = Build::default();
    build.open(2, 0);
    build.link(255, 1, 2);
    for k in 1..half {
        build.open(2, 0);
        build.take(k - 1, &[1, 2]);
    }
    build.open(1, 1);
    build.take(half - 1, &[2, 1]);
    for k in half + 1..last {
        build.open(1, 0);
        build.take(k - 1, &[1]);
    }
    build.open(0, 1);
    build.take(last - 1, &[1]);
    build.numbers()
}
