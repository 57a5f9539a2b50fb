//! The other way to find the fewest steps: unfold all, then search breadth first.

use crate::naive::check::{check, Block};

/// The links of the unfolded show that a chain may have, as pairs.
fn unfold(blocks: &[Block], k: usize, base: u32, met: &[u32], links: &mut Vec<(u32, u32)>) -> u32 {
    let block = &blocks[k];
    let number = |cue: u32| block.number(base, met, cue);
    let followed = block.links.iter().filter(|link| link.is_followed());
    links.extend(followed.map(|link| (number(link.from), number(link.to))));
    let mut next = base + block.own;
    for taken in &block.uses {
        let mut inner = [0; 8];
        for (met, cue) in inner.iter_mut().zip(taken.cues()) {
            *met = number(*cue);
        }
        next = unfold(blocks, taken.label as usize, next, &inner, links);
    }
    next
}

/// The fewest steps from s to t, by searching the whole unfolded show.
pub fn fewest(rows: &[u32], s: u32, t: u32) -> Option<u32> {
    let blocks = check(rows).ok()?;
    let mut links = Vec::new();
    let count = unfold(&blocks, blocks.len() - 1, 0, &[], &mut links) as usize;
    let (first, ends) = by_start(count, &links);
    let mut steps = vec![None; count + 1];
    steps[s as usize] = Some(0);
    let mut queue = vec![s];
    let mut done = 0;
    while let Some(cue) = queue.get(done).map(|cue| *cue as usize) {
        done += 1;
        for end in &ends[first[cue] as usize..first[cue + 1] as usize] {
            if steps[*end as usize].is_none() {
                steps[*end as usize] = steps[cue].map(|steps: u32| steps + 1);
                queue.push(*end);
            }
        }
    }
    steps[t as usize]
}

/// The ends of all links, put together by their starts, and where those of a start begin.
fn by_start(count: usize, links: &[(u32, u32)]) -> (Vec<u32>, Vec<u32>) {
    let mut first = vec![0; count + 2];
    for (from, _) in links {
        first[*from as usize + 1] += 1;
    }
    for cue in 0..=count {
        first[cue + 1] += first[cue];
    }
    let mut place = first.clone();
    let mut ends = vec![0; links.len()];
    for (from, to) in links {
        ends[place[*from as usize] as usize] = *to;
        place[*from as usize] += 1;
    }
    (first, ends)
}

#[cfg(test)]
mod tests {
    use crate::gen::{known, notes};

    #[test]
    fn the_long_ring() {
        let rows = known::long_ring(8);
        assert_eq!(super::fewest(&rows, 1, 2), Some(256));
        assert_eq!(super::fewest(&rows, 2, 1), Some(1));
        let noted = known::ring_back(8, notes::NOTE);
        assert_eq!(super::fewest(&noted, 1, 2), Some(256));
        assert_eq!(super::fewest(&noted, 2, 1), None);
    }
}
