//! Fixed cases: notes, which lists and rows behind a follow-on show and no chain has.

use super::behind::{answered, found, ring_rows};
use super::big::{listed, steps, with_answers, work_area, Asked, Case};
use super::checker::Checker;
use crate::gen::{known, notes};
use crate::limits::{FOLLOWED, NO_CHAIN, PATH};

/// Every fixed case of notes.
pub const CASES: &[Case] = &[
    ("the ring with a note", noted_ring),
    ("the ring with the last label that is followed", followed_ring),
    ("a chain that only a note would close", |checker| {
        closing(checker, notes::NOTE, &[&[1, 4, 2], &[3]])
    }),
    ("a chain closed by the last label that is followed", |checker| {
        closing(checker, FOLLOWED, &[&[1, 4, 2, 3]])
    }),
    ("notes beside links", beside),
    ("a ring of notes", ring_of_notes),
    ("a knot of notes", knot_of_notes),
    ("notes between joins", between_joins),
    ("a note half way down", half_way_down),
    ("the long ring with a note", long_ring),
];

/// The summary of a block with a chain of so many steps from join 1 to join 2, and none back.
fn one_way(steps: u32) -> Vec<Vec<u32>> {
    vec![vec![0, steps], vec![NO_CHAIN, 0]]
}

/// The summary of a block with no chain between its two joins.
fn apart() -> Vec<Vec<u32>> {
    one_way(NO_CHAIN)
}

/// The steps between all cues of some chains: none from one chain to another, nor back.
fn along(chains: &[&[u32]], work: &[u32]) -> Vec<Asked> {
    let places = |k: usize| chains[k].iter().zip(0u32..).map(move |(cue, place)| (k, place, *cue));
    let all: Vec<(usize, u32, u32)> = (0..chains.len()).flat_map(places).collect();
    let pairs = all.iter().flat_map(|one| all.iter().map(move |other| (one, other)));
    let asked = pairs.map(|((k, before, s), (other, place, t))| {
        let fewest = place.checked_sub(*before).filter(|_| k == other);
        steps(*s, *t, fewest, work)
    });
    asked.collect()
}

fn out(v: u32, cues: &[u32]) -> Asked {
    listed(true, v, 0, cues)
}

fn into(v: u32, cues: &[u32]) -> Asked {
    listed(false, v, 0, cues)
}

/// The lists of the ring, and the rows behind its links.
fn ring_links() -> Vec<Asked> {
    let links = [(1, 5), (2, 1), (3, 4), (4, 2), (5, 3)];
    let mut answers: Vec<Asked> = ring_rows().into();
    answers.extend(links.map(|(from, to)| out(from, &[to])));
    answers.extend(links.map(|(from, to)| into(to, &[from])));
    answers
}

fn ring_work() -> Vec<u32> {
    work_area(&[one_way(2), one_way(4), vec![]])
}

/// The link back, from cue 2 to cue 1, is a note.
fn noted_ring(checker: &mut Checker) {
    let mut answers = along(&[&[1, 5, 3, 4, 2]], &ring_work());
    answers.extend(ring_links());
    answered(checker, known::ring_back(2, notes::NOTE), &answers);
}

/// The link back is followed, as in the ring.
fn followed_ring(checker: &mut Checker) {
    let ring = [1, 5, 3, 4, 2];
    let mut answers = ring_links();
    for (one, other) in (0..5).flat_map(|one| (0..5).map(move |other| (one, other))) {
        let fewest = (other + 5 - one) as u32 % 5;
        answers.push(steps(ring[one], ring[other], Some(fewest), &ring_work()));
    }
    answered(checker, known::ring_back(2, FOLLOWED), &answers);
}

/// Cue 4 is that of the copy.
fn closing(checker: &mut Checker, label: u32, chains: &[&[u32]]) {
    let mut answers = along(chains, &work_area(&[one_way(2), vec![]]));
    answers.extend([out(2, &[3]), into(3, &[2]), found(2, 3, 5, &[])]);
    answered(checker, notes::closing(label), &answers);
}

fn beside(checker: &mut Checker) {
    let mut answers = along(&[&[1, 2, 3, 4]], &work_area(&[one_way(1), apart(), vec![]]));
    answers.extend([out(1, &[2, 3]), into(3, &[1, 2]), out(3, &[4])]);
    answers.extend([
        found(1, 2, 7, &[]),
        found(1, 3, 5, &[2]),
        found(2, 3, 8, &[]),
        found(3, 4, 9, &[]),
    ]);
    answered(checker, notes::beside(), &answers);
}

fn ring_of_notes(checker: &mut Checker) {
    let work = work_area(&[apart(), apart(), vec![]]);
    let mut answers = along(&[&[1], &[2], &[3], &[4], &[5]], &work);
    answers.extend(ring_links());
    answered(checker, notes::alone(known::ring()), &answers);
}

fn knot_of_notes(checker: &mut Checker) {
    let mut summaries = vec![apart(); 127];
    summaries.push(vec![]);
    let mut answers = along(&[&[1], &[2]], &work_area(&summaries));
    answers.extend([out(1, &[2]), into(2, &[1]), found(1, 2, 2, &[1; PATH])]);
    answered(checker, notes::alone(known::knot()), &answers);
}

/// Cue 4 is that of the copy in the show, and cue 5 that of the copy in the other one.
fn between_joins(checker: &mut Checker) {
    const N: u32 = NO_CHAIN;
    let lines = |lines: [[u32; 3]; 3]| lines.map(Vec::from).to_vec();
    let own = lines([[0, N, N], [N, 0, 1], [N, N, 0]]);
    let turned = lines([[0, N, N], [N, 0, N], [1, N, 0]]);
    let work = work_area(&[own, turned, vec![]]);
    let mut answers = along(&[&[5, 2, 3, 1]], &work);
    answers.extend((2..=5).map(|t| steps(4, t, (t == 4).then_some(0), &work)));
    answers.push(steps(4, 1, Some(1), &work));
    answers.extend([1, 2, 3, 5].map(|s| steps(s, 4, None, &work)));
    answers.extend([out(1, &[2, 5]), out(2, &[3]), out(3, &[1, 4]), into(1, &[3, 4])]);
    answers.extend([
        found(1, 2, 3, &[1]),
        found(1, 5, 5, &[2, 1]),
        found(2, 3, 4, &[1]),
        found(3, 4, 5, &[1]),
    ]);
    answered(checker, notes::between_joins(), &answers);
}

fn half_way_down(checker: &mut Checker) {
    let mut summaries = vec![vec![vec![0]]; 127];
    summaries.push(vec![]);
    let work = work_area(&summaries);
    let (above, below) = (&[1, 2, 62, 63][..], &[64, 65, 127, 128][..]);
    let mut answers = Vec::new();
    for (s, t) in above.iter().chain(below).flat_map(|s| [(*s, 1), (*s, 63), (*s, 64), (*s, 128)]) {
        let same_side = (s < 64) == (t < 64);
        answers.push(steps(s, t, t.checked_sub(s).filter(|_| same_side), &work));
    }
    answers.extend([out(63, &[64]), into(64, &[63]), found(63, 64, 193, &[1; 63])]);
    answered(checker, notes::half_way_down(), &answers);
}

/// The chain from cue 1 to cue 2 enters at the last cue and leaves from cue 32; none leads back.
fn long_ring(checker: &mut Checker) {
    let (last, half) = (1_073_741_825, 536_870_912);
    let mut summaries: Vec<_> = (1..=30).map(|k| one_way(1 << k)).collect();
    summaries.push(vec![]);
    let work = work_area(&summaries);
    let mut answers = vec![out(2, &[1]), into(1, &[2]), found(2, 1, 92, &[])];
    let chains =
        [(1, 2, 2 * half), (1, 3, half), (3, 2, half), (32, 2, 1), (last, 2, 2 * half - 1)];
    answers.extend(chains.map(|(s, t, fewest)| steps(s, t, Some(fewest), &work)));
    let apart = [(2, 1), (3, 1), (2, last), (last, 1), (3, last), (2, 32)];
    answers.extend(apart.map(|(s, t)| steps(s, t, None, &work)));
    with_answers(checker, known::ring_back(30, notes::NOTE), &answers);
}
