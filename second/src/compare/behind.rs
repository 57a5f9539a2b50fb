//! Fixed cases: the row behind a follow-on, where many rows or long paths come into question.

use super::big::{in_full, with_answers, Asked, Case};
use super::checker::Checker;
use crate::gen::{behind, known};
use crate::limits::{Refusal, PATH};
use crate::question::{Answer, Question};

/// Every fixed case of rows.
pub const CASES: &[Case] = &[
    ("rows of the ring", ring),
    ("equal uses", equal_uses),
    ("several labels", several_labels),
    ("a detour", detour),
    ("eight joins, all linked", eight_joins),
    ("row of the knot", |checker| answered(checker, known::knot(), &[found(1, 2, 2, &[1; PATH])])),
    ("a turned knot", turned_knot),
    ("short cuts", short_cuts),
    ("a late use", late_use),
    ("half way down", half_way),
    ("row of a deep cue", deep),
    ("rows of the tower", tower),
    ("rows of the long ring", long_ring),
];

/// The link from s to t comes from this row, in the copy at this path.
pub fn found(s: u32, t: u32, row: u32, path: &[u32]) -> Asked {
    let answer = Answer::with_numbers(&[row, path.len() as u32], path);
    (Question::Row { s, t, room: PATH + 3 }, Ok(answer))
}

fn refused(s: u32, t: u32, number: u32) -> Asked {
    (Question::Row { s, t, room: PATH }, Err(Refusal::new(number, 0)))
}

fn too_short(s: u32, t: u32, room: usize) -> Asked {
    (Question::Row { s, t, room }, Err(Refusal::new(11, 0)))
}

/// A show that can be unfolded, with answers that are known.
pub fn answered(checker: &mut Checker, rows: Vec<u32>, answers: &[Asked]) {
    with_answers(checker, rows.clone(), answers);
    in_full(checker, rows);
}

/// The rows behind the five links of the ring.
pub fn ring_rows() -> [Asked; 5] {
    [
        found(2, 1, 8, &[]),
        found(4, 2, 2, &[1, 1]),
        found(3, 4, 3, &[1, 1]),
        found(5, 3, 2, &[1, 2]),
        found(1, 5, 3, &[1, 2]),
    ]
}

fn ring(checker: &mut Checker) {
    let mut answers: Vec<Asked> = ring_rows().into();
    answers.extend([refused(1, 2, 14), refused(5, 1, 14)]);
    answers.extend((1..=5).map(|cue| refused(cue, cue, 14)));
    let none = [0, 6, u32::MAX];
    for no_cue in none {
        answers.extend((1..=5).flat_map(|cue| [(no_cue, cue), (cue, no_cue)]).map(no_pair));
        answers.extend(none.map(|other| refused(no_cue, other, 12)));
        answers.extend([0, 1, PATH - 1].map(|room| too_short(no_cue, 1, room)));
    }
    answers.extend([0, 1, 2, PATH - 1].map(|room| too_short(2, 1, room)));
    answered(checker, known::ring(), &answers);
}

fn no_pair((s, t): (u32, u32)) -> Asked {
    refused(s, t, 12)
}

/// Cues 4 to 6 are those of the three copies.
fn equal_uses(checker: &mut Checker) {
    let answers = [
        found(1, 2, 4, &[1]),
        found(2, 3, 4, &[3]),
        found(1, 4, 3, &[1]),
        found(1, 5, 3, &[2]),
        found(5, 2, 2, &[2]),
        found(6, 3, 2, &[3]),
        refused(2, 1, 14),
        refused(4, 5, 14),
        refused(5, 3, 14),
    ];
    answered(checker, behind::equal_uses(), &answers);
}

fn several_labels(checker: &mut Checker) {
    let answers = [
        found(1, 2, 2, &[1]),
        found(2, 1, 10, &[]),
        found(1, 3, 2, &[3, 1]),
        found(3, 1, 7, &[3]),
        found(2, 3, 12, &[]),
        found(3, 2, 5, &[4]),
    ];
    answered(checker, behind::several_labels(), &answers);
}

fn detour(checker: &mut Checker) {
    let answers = [found(1, 2, 6, &[1, 2]), found(2, 1, 6, &[2, 2]), refused(1, 3, 14)];
    answered(checker, behind::detour(), &answers);
}

fn eight_joins(checker: &mut Checker) {
    let answers = [found(1, 8, 51, &[1, 1]), found(8, 1, 8, &[1, 1]), found(8, 7, 2, &[1, 1])];
    answered(checker, behind::eight_joins(), &answers);
}

/// Back from 2 to 1 one turn is enough, and it comes as late as it can.
fn turned_knot(checker: &mut Checker) {
    let mut back = [1; PATH];
    back[PATH - 1] = 2;
    let answers = [found(1, 2, 2, &[1; PATH]), found(2, 1, 2, &back)];
    answered(checker, behind::turned_knot(), &answers);
}

fn short_cuts(checker: &mut Checker) {
    let answers = [found(1, 2, 2, &[2, 2, 2, 2, 2, 2, 1]), refused(2, 1, 14), refused(3, 4, 14)];
    answered(checker, behind::short_cuts(), &answers);
}

fn late_use(checker: &mut Checker) {
    let answers = [found(2, 1, 510, &[501]), refused(1, 2, 14)];
    answered(checker, behind::late_use(), &answers);
}

fn half_way(checker: &mut Checker) {
    let answers = [found(1, 2, 2, &[1; PATH]), refused(2, 1, 14)];
    answered(checker, behind::half_way(), &answers);
}

/// Cue 128 is owned by the lowest copy, and linked with the show's own cue there.
fn deep(checker: &mut Checker) {
    let answers = [
        found(1, 128, 3, &[1; PATH]),
        found(128, 1, 2, &[1; PATH]),
        found(1, 127, 6, &[1; PATH - 1]),
        refused(128, 127, 14),
        refused(128, 128, 14),
        refused(128, 129, 12),
        refused(129, 128, 12),
    ];
    answered(checker, known::deep_join(), &answers);
}

fn tower(checker: &mut Checker) {
    let last = 2_147_483_647;
    let answers = [
        refused(1, last, 14),
        refused(last, 1, 14),
        refused(last, last, 14),
        refused(last + 1, last, 12),
        refused(last, last + 1, 12),
        refused(u32::MAX, 0, 12),
    ];
    with_answers(checker, known::tower(31), &answers);
}

fn long_ring(checker: &mut Checker) {
    let last = 1_073_741_825;
    let mut path = [2; 30];
    path[0] = 1;
    let answers = [
        found(2, 1, 92, &[]),
        found(1, last, 3, &path),
        found(32, 2, 2, &[1; 30]),
        refused(1, 2, 14),
        refused(last, 1, 14),
        refused(last, last + 1, 12),
    ];
    with_answers(checker, known::long_ring(30), &answers);
}
