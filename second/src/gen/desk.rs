//! Shows for the second way of reading: the rows of a file that stand behind those of the desk.

use super::build::Build;
use super::known;
use crate::limits::{BLOCKS, COLUMNS, DESK_BLOCKS, OWN_ROWS};

/// Two cues with a run of the desk between them, block k.
pub fn run(k: u32) -> Vec<u32> {
    let mut build = Build::behind_desk();
    build.open(0, 2);
    build.take(k, &[1, 2]);
    build.numbers()
}

/// Cues with the runs of the desk between them, one behind the other, and a link back.
pub fn all_runs() -> Vec<u32> {
    let mut build = Build::behind_desk();
    let runs = DESK_BLOCKS as u32;
    build.open(0, runs + 1);
    build.link(1, runs + 1, 1);
    for k in 0..runs {
        build.take(k, &[k + 1, k + 2]);
    }
    build.numbers()
}

/// A run of five cues and a run of two make a block with a note past them; the show takes that
/// block twice, once turned round, and a run of one cue.
pub fn desk_run() -> Vec<u32> {
    let mut build = Build::behind_desk();
    build.open(2, 1);
    build.link(255, 2, 3);
    build.take(1, &[1, 3]);
    build.take(4, &[2, 1]);
    let used = build.open(0, 3) - 1;
    build.link(7, 3, 1);
    build.take(used, &[1, 2]);
    build.take(0, &[2, 3]);
    build.take(used, &[3, 2]);
    build.numbers()
}

/// The rows of a show with the numbers that its blocks have behind those of the desk.
pub fn moved(rows: &[u32]) -> Vec<u32> {
    let mut rows = rows.to_vec();
    for row in rows.as_chunks_mut::<COLUMNS>().0 {
        row[0] += DESK_BLOCKS as u32;
        if row[1] == 2 {
            row[2] += DESK_BLOCKS as u32;
        }
    }
    rows
}

/// One block of 255 cues with links, in so many rows.
pub fn wide(rows: usize) -> Vec<u32> {
    moved(&known::wide(rows))
}

/// The most rows and the most blocks, nearly all of them uses that name eight cues of three digits.
pub fn longest() -> Vec<u32> {
    let mut build = Build::behind_desk();
    build.open(8, 1);
    let blocks = (BLOCKS - DESK_BLOCKS) as u32;
    for k in 2..=blocks {
        let used = build.open(if k == blocks { 0 } else { 8 }, 255) - 1;
        let cues: Vec<u32> = (248..=255).collect();
        // No total is too large: only the show takes the block before it more than once.
        let uses = if k == blocks { OWN_ROWS - build.rows.len() } else { 1 };
        (0..uses).for_each(|_| build.take(used, &cues));
    }
    build.numbers()
}

/// Small shows that stand close to many limits of the second way.
pub fn bases() -> Vec<Vec<u32>> {
    vec![run(15), desk_run(), moved(&known::ring()), moved(&known::tower(3))]
}

#[cfg(test)]
mod tests {
    use super::*;
    use crate::naive::desk::{read, table};
    use crate::naive::file::print;

    #[test]
    fn the_shows_are_read_behind_the_desk() {
        let mut shows = vec![all_runs(), longest(), wide(OWN_ROWS)];
        shows.extend(bases());
        shows.extend((0..16).map(run));
        for own in shows {
            let all = [table().concat(), own.clone()].concat();
            assert_eq!(read(&print(own.as_chunks().0)), Ok(all));
        }
        assert_eq!(longest().len(), OWN_ROWS * COLUMNS);
    }
}
