//! Broken rows whose refusal is known beforehand, so that the naive tool is held to it too.

use super::big::Case;
use super::broken;
use super::checker::Checker;
use super::outcome::Call;
use crate::gen::build::Build;
use crate::gen::{edges, known};
use crate::limits::{Refusal, BLOCKS, COLUMNS, GIVEN, JOINS, ROWS};
use crate::question::{Answer, Input, Question};

/// The number and the row of a refusal, or how many cues there are.
type Expected = Result<u32, (u32, usize)>;

/// Broken rows with their refusals.
pub const CASES: &[Case] = &[
    ("a use that names a cue twice", named_twice),
    ("a use that names no cue of its block", no_cues),
    ("idle columns of a use", idle_of_uses),
    ("a use of a block without joins", without_joins),
    ("idle columns of openings and links", idle_columns),
    ("limits of openings and links", limits),
    ("order of two links", link_order),
    ("order of two uses", use_order),
    ("order of checks in one row", one_row),
    ("rows out of place", out_of_place),
    ("number of rows", row_counts),
    ("number of blocks", block_counts),
    ("first or last block", joins),
    ("totals at the limit", totals),
    ("joins before totals", joins_before_totals),
];

/// What is expected must be so, by the library and by the naive tool.
fn must(checker: &mut Checker, rows: Vec<u32>, expected: Expected) {
    let result = match expected {
        Ok(cues) => Ok(Answer::given(&[cues])),
        Err((number, row)) => Err(Refusal::new(number, row)),
    };
    let call = Call { question: Question::Count, given: GIVEN };
    checker.compare(&Input::Rows(rows.clone()), call, &result);
    broken::ask(checker, rows);
}

/// The rows with one number changed: row (from 1), column and value.
fn changed(rows: &[u32], changes: &[(usize, usize, u32)]) -> Vec<u32> {
    let mut rows = rows.to_vec();
    for (row, column, value) in changes {
        rows[(row - 1) * COLUMNS + column] = *value;
    }
    rows
}

/// A show with a use of a block of so many joins, and the row of this use: it stands alone, behind
/// a link, behind another use or before one.
fn with_use(joins: usize) -> Vec<(Vec<u32>, usize)> {
    let named: Vec<u32> = (0..joins as u32).map(|join| 10 - join).collect();
    let begun = |linked: bool, below: bool| {
        let mut build = Build::default();
        build.open(joins as u32, 0);
        build.open(0, 12);
        if linked {
            build.link(1, 1, 2);
        }
        if below {
            build.take(0, &(1..=joins as u32).collect::<Vec<u32>>());
        }
        build.take(0, &named);
        build
    };
    let mut last = begun(true, false);
    last.take(0, &(0..joins as u32).map(|join| 12 - join).collect::<Vec<u32>>());
    vec![
        (begun(false, false).numbers(), 3),
        (begun(true, false).numbers(), 4),
        (begun(false, true).numbers(), 4),
        (begun(true, true).numbers(), 5),
        (last.numbers(), 4),
    ]
}

/// Every use of `with_use`, for each number of joins.
fn each_use(mut look: impl FnMut(usize, &[u32], usize)) {
    for joins in 1..=JOINS {
        for (rows, row) in with_use(joins) {
            look(joins, &rows, row);
        }
    }
}

/// Each pair of the columns that name a cue, either one made like the other.
fn named_twice(checker: &mut Checker) {
    each_use(|joins, rows, row| {
        must(checker, rows.to_vec(), Ok(12));
        let value = |column: usize| rows[(row - 1) * COLUMNS + column];
        for one in 3..3 + joins {
            for other in (3..3 + joins).filter(|other| *other != one) {
                let twice = changed(rows, &[(row, one, value(other))]);
                must(checker, twice, Err((7, row)));
            }
        }
    });
}

/// Each column that names a cue with a number that is none: alone, and beside a pair of columns
/// that are the same.
fn no_cues(checker: &mut Checker) {
    each_use(|joins, rows, row| {
        for column in 3..3 + joins {
            for value in [0, 13, 256, 65_536 + 12, (1 << 31) + 12, u32::MAX] {
                must(checker, changed(rows, &[(row, column, value)]), Err((6, row)));
                for other in (3..3 + joins).filter(|other| *other != column) {
                    let both = changed(rows, &[(row, column, value), (row, other, value)]);
                    must(checker, both, Err((6, row)));
                }
            }
        }
    });
}

/// A number in each idle column: a cue that no column names, one that is named, more than a cue; also
/// where two columns that name a cue are the same.
fn idle_of_uses(checker: &mut Checker) {
    each_use(|joins, rows, row| {
        for column in 3 + joins..COLUMNS {
            for value in [1, 10, 12, 13, 256, 65_536, 1 << 31, u32::MAX] {
                let rows = changed(rows, &[(row, column, value)]);
                must(checker, rows.clone(), Err((6, row)));
                for other in 4..3 + joins {
                    must(checker, changed(&rows, &[(row, other, 10)]), Err((6, row)));
                }
            }
        }
    });
}

/// Uses that name no cue at all are in order by their blocks; that such a block fails check 9 comes
/// behind all rows.
fn without_joins(checker: &mut Checker) {
    let mut build = Build::default();
    build.open(0, 0);
    build.open(0, 1);
    build.open(0, 2);
    [0, 0, 1].into_iter().for_each(|used| build.take(used, &[]));
    let rows = build.numbers();
    must(checker, rows.clone(), Err((9, 1)));
    must(checker, changed(&rows, &[(5, 2, 1), (6, 2, 0)]), Err((8, 6)));
    for row in 4..=6 {
        must(checker, changed(&rows, &[(row, 2, 2)]), Err((6, row)));
        for column in 3..COLUMNS {
            for value in [1, 2, 3, 65_536, u32::MAX] {
                must(checker, changed(&rows, &[(row, column, value)]), Err((6, row)));
            }
        }
    }
}

/// A block of two joins and two own cues with links and two uses, below a show like it.
fn mixed() -> Vec<u32> {
    let mut build = Build::default();
    build.open(2, 0);
    for (joins, own) in [(2, 2), (0, 4)] {
        build.open(joins, own);
        build.link(1, 1, 2);
        build.link(2, 1, 2);
        build.link(1, 3, 1);
        build.take(0, &[1, 3]);
        build.take(0, &[1, 4]);
    }
    build.numbers()
}

/// The rows of a kind in `mixed`, counted from 1.
fn of_kind(kind: u32) -> Vec<usize> {
    let rows = mixed();
    (1..=rows.len() / COLUMNS).filter(|row| rows[(row - 1) * COLUMNS + 1] == kind).collect()
}

/// Each idle column; also where a link leads to its own cue.
fn idle_columns(checker: &mut Checker) {
    for (kind, first) in [(0, 4), (1, 5)] {
        for row in of_kind(kind) {
            for column in first..COLUMNS {
                for value in [1, 2, 256, 65_536, 1 << 31, u32::MAX] {
                    let rows = changed(&mixed(), &[(row, column, value)]);
                    must(checker, rows.clone(), Err((6, row)));
                    let twice = changed(&rows, &[(row, 3, 2), (row, 4, 2), (row, column, value)]);
                    must(checker, twice, Err((6, row)));
                }
            }
        }
    }
}

fn limits(checker: &mut Checker) {
    let wrong = |kind: u32, column: usize| match (kind, column) {
        (0, 2) => vec![9, 16, 256, 1 << 31, u32::MAX],
        (0, _) => vec![256, 257, 65_536, 1 << 31, u32::MAX],
        (_, 2) => vec![0, 256, 257, 65_537, (1 << 31) + 1, u32::MAX],
        _ => vec![0, 5, 257, 65_537, (1 << 31) + 1, u32::MAX],
    };
    for (kind, columns) in [(0, 2..4), (1, 2..5)] {
        for row in of_kind(kind) {
            for column in columns.clone() {
                for value in wrong(kind, column) {
                    let rows = changed(&mixed(), &[(row, column, value)]);
                    must(checker, rows, Err((6, row)));
                }
            }
        }
    }
}

/// Any two of many links behind one another: the second must be above the first.
fn link_order(checker: &mut Checker) {
    const CUES: [u32; 6] = [1, 2, 254, 255, 256, 263];
    let pairs = CUES.into_iter().flat_map(|from| CUES.map(|to| (from, to)));
    let keys: Vec<(u32, u32, u32)> = pairs
        .filter(|(from, to)| from != to)
        .flat_map(|(from, to)| [1, 2, 255].map(|label| (from, to, label)))
        .collect();
    for one in &keys {
        for other in &keys {
            let mut build = Build::default();
            build.open(8, 255);
            build.link(one.2, one.0, one.1);
            build.link(other.2, other.0, other.1);
            build.open(0, 1);
            must(checker, build.numbers(), if one < other { Ok(1) } else { Err((8, 3)) });
        }
    }
}

/// Uses of two blocks of each number of joins, at some cues: those in order, those turned, those
/// with one cue raised.
fn some_uses() -> Vec<(Vec<u32>, u32)> {
    let mut uses = Vec::new();
    for joins in 1..=JOINS as u32 {
        let mut named: Vec<Vec<u32>> = vec![(1..=joins).collect(), (1..=joins).rev().collect()];
        for raised in 0..joins as usize {
            let mut cues = named[0].clone();
            cues[raised] = 263 - raised as u32;
            named.push(cues);
        }
        for cues in named {
            uses.extend([2 * joins - 2, 2 * joins - 1].map(|label| (cues.clone(), label)));
        }
    }
    uses
}

/// Any two of many uses behind one another: the second must not be below the first.
fn use_order(checker: &mut Checker) {
    let mut below = Build::default();
    for joins in 1..=JOINS as u32 {
        below.open(joins, 0);
        below.open(joins, 0);
    }
    below.open(8, 255);
    let key = |cues: &[u32]| {
        let mut columns = [0; JOINS];
        columns[..cues.len()].copy_from_slice(cues);
        columns
    };
    let uses = some_uses();
    for (one, first) in &uses {
        for (other, second) in &uses {
            let mut build = below.clone();
            build.take(*first, one);
            build.take(*second, other);
            build.open(0, 1);
            let rises = (key(one), first) <= (key(other), second);
            must(checker, build.numbers(), if rises { Ok(1) } else { Err((8, 19)) });
        }
    }
}

/// A row with faults of several checks: the lowest number.
fn one_row(checker: &mut Checker) {
    let fault = |number: u32, row: usize| match number {
        5 => vec![(row, 0, 7)],
        6 => vec![(row, 10, 1)],
        _ => vec![(row, 4, 1)],
    };
    for row in of_kind(1).into_iter().chain(of_kind(2)) {
        for (low, high) in [(5, 6), (5, 7), (6, 7), (5, 5)] {
            let changes = [fault(low, row), fault(high, row), vec![(row, 3, 1)]].concat();
            must(checker, changed(&mixed(), &changes), Err((low, row)));
        }
        must(checker, changed(&mixed(), &[(row, 3, 1), (row, 4, 1)]), Err((7, row)));
    }
    for row in of_kind(0) {
        for column in 2..COLUMNS {
            let rows = changed(&mixed(), &[(row, 0, 9), (row, column, 300)]);
            must(checker, rows, Err((5, row)));
        }
    }
}

/// Rows of another kind or block than may follow.
fn out_of_place(checker: &mut Checker) {
    let rows = mixed();
    for row in 1..=rows.len() / COLUMNS {
        let block = rows[(row - 1) * COLUMNS];
        for value in [3, 4, 256, 257, 258, 65_536, 65_537, 1 << 31, u32::MAX] {
            must(checker, changed(&rows, &[(row, 1, value)]), Err((5, row)));
        }
        for more in [1, 2, u32::MAX, 128, 256, 65_536, 1 << 31] {
            let other = block.wrapping_add(more);
            must(checker, changed(&rows, &[(row, 0, other)]), Err((5, row)));
        }
    }
    for kind in [1, 2] {
        must(checker, changed(&rows, &[(1, 1, kind)]), Err((5, 1)));
        must(checker, rows[of_kind(kind)[0] * COLUMNS - COLUMNS..].to_vec(), Err((5, 1)));
    }
    for row in [7, 13] {
        must(checker, changed(&rows, &[(row, 1, 1), (row, 2, 1)]), Err((5, row)));
    }
}

/// No row, the most, more, and what is not a whole number of rows.
fn row_counts(checker: &mut Checker) {
    let rows = known::wide(ROWS + 1);
    for count in [1, 2, ROWS - 1, ROWS] {
        must(checker, rows[..count * COLUMNS].to_vec(), Ok(255));
        for length in [count * COLUMNS - 1, count * COLUMNS + 1, count * COLUMNS + COLUMNS - 1] {
            must(checker, rows[..length].to_vec(), Err((4, 0)));
        }
    }
    for length in [0, 1, COLUMNS - 1, (ROWS + 1) * COLUMNS] {
        must(checker, rows[..length].to_vec(), Err((4, 0)));
    }
    let faulty = changed(&rows, &[(1, 1, 3), (ROWS + 1, 1, 3)]);
    must(checker, faulty.clone(), Err((4, 0)));
    must(checker, faulty[..ROWS * COLUMNS].to_vec(), Err((5, 1)));
    let last = changed(&rows, &[(ROWS, 3, 0)]);
    must(checker, last[..ROWS * COLUMNS].to_vec(), Err((6, ROWS)));
}

fn block_counts(checker: &mut Checker) {
    must(checker, edges::many_blocks(BLOCKS as u32), Ok(1));
    must(checker, edges::many_blocks(BLOCKS as u32 + 1), Err((5, BLOCKS + 1)));
    must(checker, edges::many_blocks(2 * BLOCKS as u32), Err((5, BLOCKS + 1)));
    let mut deep = Build::default();
    deep.open(1, 0);
    for _ in 0..BLOCKS {
        let below = deep.open(1, 0) - 1;
        deep.take(below, &[1]);
    }
    must(checker, deep.numbers(), Err((5, 2 * BLOCKS)));
}

/// Check 9, at each block and at two of them.
fn joins(checker: &mut Checker) {
    let rows = edges::many_blocks(9);
    for block in 1..9 {
        must(checker, changed(&rows, &[(block, 2, 0)]), Err((9, block)));
        for other in block + 1..9 {
            let both = changed(&rows, &[(block, 2, 0), (other, 2, 0)]);
            must(checker, both, Err((9, block)));
        }
        let both = changed(&rows, &[(block, 2, 0), (9, 3, 0)]);
        must(checker, both, Err((9, block)));
        let joined = changed(&rows, &[(9, 2, block as u32)]);
        must(checker, joined, Err((9, 9)));
        must(checker, rows[..block * COLUMNS].to_vec(), Err((9, block)));
    }
    must(checker, changed(&rows, &[(9, 3, 0)]), Err((9, 9)));
    must(checker, changed(&rows, &[(9, 2, 1), (9, 3, 0)]), Err((9, 9)));
}

/// A show that has so many own cues and so many uses of block k of the tower, above its 31 blocks;
/// row 92 opens it.
fn above_tower(own: u32, k: u32, uses: usize) -> Vec<u32> {
    let mut build = known::tower_below(31);
    build.open(0, own);
    (0..uses).for_each(|_| build.take(k, &[1]));
    build.numbers()
}

/// Totals of 2,147,483,647 and one more, and sums that are small in 32 bits.
fn totals(checker: &mut Checker) {
    let most = (1 << 31) - 1;
    must(checker, known::tower(31), Ok(most));
    must(checker, known::tower(32), Err((10, 92)));
    must(checker, above_tower(1, 30, 0), Ok(1));
    for (own, k, uses) in [(1, 29, 2), (3, 28, 4), (7, 27, 8), (255, 22, 256), (127, 23, 128)] {
        must(checker, above_tower(own, k, uses), Ok(most));
        must(checker, above_tower(own, k, uses + 1), Err((10, 92)));
        if own < 255 {
            must(checker, above_tower(own + 1, k, uses), Err((10, 92)));
        }
    }
    for (own, uses) in [(1, 1), (1, 2), (2, 2), (3, 2), (4, 4), (5, 4), (8, 8), (255, 900)] {
        must(checker, above_tower(own, 30, uses), Err((10, 92)));
    }
    for row in [1, 2, 5, 89] {
        must(checker, changed(&above_tower(1, 0, 0), &[(row, 3, 2)]), Err((10, 89)));
    }
}

/// A tower of one block too many, an empty block without joins before it or behind it, and a show.
fn too_high(before: bool, behind: bool) -> Vec<u32> {
    let mut build = Build::default();
    if before {
        build.open(0, 1);
    }
    let first = build.open(1, 1);
    for below in first..first + 31 {
        build.open(1, 1);
        build.take(below, &[1]);
        build.take(below, &[1]);
    }
    if behind {
        build.open(0, 1);
    }
    build.open(0, 1);
    build.numbers()
}

/// Check 9 of a late block decides before check 10 of an early one; of two that fail check 10 the
/// first.
fn joins_before_totals(checker: &mut Checker) {
    must(checker, too_high(false, false), Err((10, 92)));
    must(checker, too_high(true, false), Err((9, 1)));
    must(checker, too_high(false, true), Err((9, 95)));
    must(checker, too_high(true, true), Err((9, 1)));
    let rows = above_tower(1, 30, 2);
    must(checker, rows.clone(), Err((10, 92)));
    must(checker, changed(&rows, &[(92, 2, 1), (92, 3, 0)]), Err((9, 92)));
    must(checker, changed(&rows, &[(92, 2, 1)]), Err((9, 92)));
    must(checker, changed(&rows, &[(1, 3, 2)]), Err((10, 89)));
    must(checker, changed(&rows, &[(1, 3, 255)]), Err((10, 71)));
    must(checker, changed(&rows, &[(1, 3, 255), (92, 2, 1)]), Err((9, 92)));
    must(checker, changed(&rows, &[(1, 3, 255), (94, 1, 3)]), Err((5, 94)));
}
