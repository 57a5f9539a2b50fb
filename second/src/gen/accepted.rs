//! Accepted shows in which rows of every kind stand in every position. They are there to be broken.

use super::build::Build;
use super::known;
use super::prng::Prng;
use super::{edges, random};
use crate::limits::TOTAL;

/// A show with its name.
pub type Named = (&'static str, Vec<u32>);

/// Shows of up to 130 rows, of which every row can be broken in every way.
pub fn short() -> Vec<Named> {
    let prng = &mut Prng::new(7, 7);
    vec![
        ("one row", one_row()),
        ("ring", known::ring()),
        ("openings", openings()),
        ("links", links()),
        ("uses of every block", uses()),
        ("blocks of every form, the last empty", forms(0)),
        ("blocks of every form, the last of links", forms(1)),
        ("blocks of every form, the last of uses", forms(2)),
        ("blocks of every form, the last of both", forms(3)),
        ("tower", known::tower(31)),
        ("tower below a show", unused_most()),
        ("steep tower", steep_tower()),
        ("128 empty blocks", edges::many_blocks(128)),
        ("100 mixed rows", random::sized(prng, 100, 9, TOTAL)),
    ]
}

/// Longer shows: of 1,024 rows, or of 128 blocks.
pub fn long() -> Vec<Named> {
    let prng = &mut Prng::new(7, 8);
    vec![
        ("128 blocks", known::deep(true)),
        ("1,024 links", known::wide(1024)),
        ("1,024 rows", known::five_blocks()),
        ("1,024 mixed rows", random::sized(prng, 1024, 9, TOTAL)),
    ]
}

/// Rows of a file that is read behind the desk's blocks: links, uses of them and of one of its own.
pub fn behind_desk() -> Vec<u32> {
    let mut build = Build::behind_desk();
    build.open(3, 1);
    build.link(1, 1, 2);
    build.link(255, 1, 2);
    build.take(0, &[1, 2]);
    build.take(15, &[4, 1]);
    build.open(0, 3);
    build.link(7, 3, 1);
    build.take(3, &[1, 2]);
    build.take(16, &[3, 1, 2]);
    build.numbers()
}

fn one_row() -> Vec<u32> {
    let mut build = Build::default();
    build.open(0, 1);
    build.numbers()
}

/// Blocks of one to eight joins with no own cue, one, or the most, and a show of as many.
fn openings() -> Vec<u32> {
    let mut build = Build::default();
    for joins in 1..=8u32 {
        build.open(joins, [0, 1, 255][joins as usize % 3]);
    }
    build.open(0, 255);
    build.numbers()
}

/// Links that differ from the one before in the first cue, in the second or in the label alone; in
/// a block with the most cues, and in the show.
fn links() -> Vec<u32> {
    let mut build = Build::default();
    for (joins, own, above) in [(8, 255, 263), (0, 255, 254)] {
        build.open(joins, own);
        let mut pairs =
            [(1, 2), (1, 255), (1, above), (2, 1), (253, 255), (255, above), (above, 1)];
        pairs.sort();
        for (from, to) in pairs {
            build.link(1, from, to);
            build.link(255, from, to);
        }
    }
    build.numbers()
}

/// Uses of blocks of one to eight joins: in a block with the most cues and nothing else, behind
/// links, and in the show. One in four stands twice.
fn uses() -> Vec<u32> {
    let mut build = Build::default();
    for joins in 1..=8 {
        build.open(joins, 1);
    }
    for (joins, own, step) in [(8, 255, 40), (3, 8, 4), (0, 9, 2)] {
        build.open(joins, own);
        let cues = joins + own;
        if joins == 3 {
            build.chain(&[1, 2, 3, 11]);
        }
        for used in 0..8 {
            let named: Vec<u32> = (0..=used).map(|join| cues - join * step % cues).collect();
            build.take(used, &named);
            if used % 4 == 3 {
                build.take(used, &named);
            }
        }
        build.sort_uses();
    }
    build.numbers()
}

/// Empty blocks, blocks of links, of uses and of both, each of them behind each, then a show of
/// the form `last`.
fn forms(last: usize) -> Vec<u32> {
    let mut build = Build::default();
    for form in [0, 0, 1, 0, 2, 0, 3, 1, 1, 2, 1, 3, 2, 2, 3, 3, 0] {
        let block = build.open(2, 2);
        fill(&mut build, form, block);
    }
    let block = build.open(0, 4);
    fill(&mut build, last, block);
    build.numbers()
}

/// The rows of a block of four cues: links where the form is odd, uses from form 2 on.
fn fill(build: &mut Build, form: usize, block: u32) {
    if form % 2 == 1 {
        build.link(1, 1, 2);
        build.link(2, 1, 2);
        build.link(1, 3, 1);
    }
    if form >= 2 {
        build.take(block / 2, &[1, 3]);
        build.take(block - 1, &[1, 3]);
        build.take(0, &[4, 1]);
    }
}

/// A block with as many cues as a block may have, and above it a show of as many that does not use
/// it, but twice the one below.
fn unused_most() -> Vec<u32> {
    let mut build = known::tower_below(31);
    build.open(0, 1);
    build.take(29, &[1]);
    build.take(29, &[1]);
    build.numbers()
}

/// Few rows that reach the most cues: each block has the one before four times, the show has the
/// last of them twice. An empty block stands first, another before the show.
fn steep_tower() -> Vec<u32> {
    let mut build = Build::default();
    build.open(1, 0);
    build.open(1, 255);
    for used in 1..12 {
        build.open(1, 3);
        (0..4).for_each(|_| build.take(used, &[1]));
    }
    build.open(1, 0);
    build.open(0, 1);
    (0..2).for_each(|_| build.take(12, &[1]));
    build.numbers()
}
