//! Shows with notes: links of label 255, which no chain has.

use super::build::Build;
use super::known;
use super::prng::Prng;
use crate::limits::{Row, COLUMNS, FOLLOWED};

/// The label of a note.
pub const NOTE: u32 = FOLLOWED + 1;

/// Turns one link in four into a note, by chance. Those that cannot become one are made up for by
/// the others.
pub fn some(prng: &mut Prng, rows: &mut [u32]) {
    let mut able = 0;
    turned(&mut rows.to_vec(), |_| {
        able += 1;
        false
    });
    let links = rows.as_chunks::<COLUMNS>().0.iter().filter(|row| is_link(row)).count();
    turned(rows, |_| prng.below(4 * able) < links);
}

/// The show with notes for its links.
pub fn alone(mut rows: Vec<u32>) -> Vec<u32> {
    turned(&mut rows, |_| true);
    rows
}

/// Turns the chosen links, each told by its row, into notes. Of several between the same two cues
/// only the last can become one, so that links still rise.
fn turned(rows: &mut [u32], mut chosen: impl FnMut(usize) -> bool) {
    let (rows, _) = rows.as_chunks_mut::<COLUMNS>();
    let ends = |row: &Row| (row[0], row[1], row[3], row[4]);
    for place in 0..rows.len() {
        let last = rows.get(place + 1).is_none_or(|next| ends(next) != ends(&rows[place]));
        if is_link(&rows[place]) && last && chosen(place + 1) {
            rows[place][2] = NOTE;
        }
    }
}

/// The rows without the notes among them. Cues keep their numbers.
pub fn left_out(rows: &[u32]) -> Vec<u32> {
    let (rows, _) = rows.as_chunks::<COLUMNS>();
    rows.iter().filter(|row| !is_link(row) || row[2] != NOTE).flatten().copied().collect()
}

fn is_link(row: &Row) -> bool {
    row[1] == 1
}

/// A chain from cue 1 through a copy to cue 2, and from there to cue 3 by a link of this label.
pub fn closing(label: u32) -> Vec<u32> {
    let mut build = Build::default();
    build.open(2, 1);
    build.chain(&[2, 1, 3]);
    build.open(0, 3);
    build.link(label, 2, 3);
    build.take(0, &[1, 2]);
    build.numbers()
}

/// Notes beside links between the same two cues: in one block, in a copy below a link, and above
/// one; and a note from cue 1 to cue 3, past the links over cue 2.
pub fn beside() -> Vec<u32> {
    let mut build = Build::default();
    build.open(2, 0);
    build.link(3, 1, 2);
    build.link(NOTE, 1, 2);
    build.open(2, 0);
    build.link(NOTE, 1, 2);
    build.open(0, 4);
    build.link(NOTE, 1, 2);
    build.link(1, 2, 3);
    build.link(FOLLOWED, 3, 4);
    build.link(NOTE, 3, 4);
    build.take(0, &[1, 2]);
    build.take(1, &[1, 3]);
    build.take(1, &[2, 3]);
    build.numbers()
}

/// Notes and links between the joins of a block, by itself and inside another one.
pub fn between_joins() -> Vec<u32> {
    let mut build = Build::default();
    build.open(3, 1);
    build.link(1, 1, 2);
    build.link(NOTE, 2, 3);
    build.link(FOLLOWED, 3, 4);
    build.link(NOTE, 4, 1);
    build.open(3, 0);
    build.link(NOTE, 1, 2);
    build.take(0, &[2, 3, 1]);
    build.open(0, 3);
    build.take(0, &[1, 2, 3]);
    build.take(1, &[1, 2, 3]);
    build.numbers()
}

/// A chain through 127 levels of copies with a note from cue 63 to cue 64, in row 193.
pub fn half_way_down() -> Vec<u32> {
    let mut rows = known::deep(true);
    turned(&mut rows, |row| row == 193);
    rows
}

#[cfg(test)]
mod tests {
    use super::*;
    use crate::gen::random;
    use crate::naive::check::check;

    /// How many links the rows have, and how many of them are notes.
    fn counts(rows: &[u32]) -> [usize; 2] {
        let blocks = check(rows).expect("an accepted show");
        let links: Vec<_> = blocks.iter().flat_map(|block| &block.links).collect();
        [links.len(), links.iter().filter(|link| !link.is_followed()).count()]
    }

    #[test]
    fn one_link_in_four_of_random_shows_is_a_note() {
        let mut all = [0; 2];
        for (shape, case) in random::SHAPES.iter().cycle().zip(0..500) {
            let rows = random::show(&mut Prng::new(41, case), shape);
            let [links, notes] = counts(&rows);
            assert_eq!(counts(&left_out(&rows)), [links - notes, 0]);
            all = [all[0] + links, all[1] + notes];
        }
        let [links, notes] = all;
        let near = links * 19 / 20..links * 21 / 20;
        assert!(links > 4000 && near.contains(&(4 * notes)), "{notes} notes of {links} links");
    }

    #[test]
    fn every_link_becomes_a_note() {
        for rows in [known::ring(), known::knot(), known::deep(true), known::wide(1024)] {
            let [links, _] = counts(&rows);
            assert_eq!(counts(&alone(rows)), [links, links]);
        }
        assert_eq!(counts(&half_way_down()), [127, 1]);
    }
}
