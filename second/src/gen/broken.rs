//! Every way to break a show, in order: a number changed, rows and columns moved, blocks numbered
//! otherwise, other lengths.

use std::collections::BTreeSet;

use crate::limits::{Row, COLUMNS, ROWS};

/// Values around every limit, and around what fewer bits would hold.
const VALUES: [u32; 33] = [
    0, 1, 2, 3, 7, 8, 9, 126, 127, 128, 254, 255, 256, 257, 262, 263, 264, 1023, 1024, 1025,
    65_535, 65_536, 65_537, 2_097_151, 2_097_152, 0xFFFFFF, 0x1000000, 0x7FFFFFFF, 0x80000000,
    0x80000001, 0xFFFFFFFD, 0xFFFFFFFE, 0xFFFFFFFF,
];

/// A number that is put at a place.
#[derive(Clone, Copy, Debug)]
pub struct Change {
    pub place: usize,
    pub value: u32,
}

impl Change {
    /// The rows with this change made.
    pub fn of(self, rows: &[u32]) -> Vec<u32> {
        let mut rows = rows.to_vec();
        rows[self.place] = self.value;
        rows
    }
}

/// Every change of one number of a row: to values around the limits, to what is near it, to the
/// numbers above and below it, and to each other number of its row.
pub fn of_row(base: &[u32], row: usize) -> Vec<Change> {
    (row * COLUMNS..(row + 1) * COLUMNS)
        .flat_map(|place| others(base, place).into_iter().map(move |value| Change { place, value }))
        .collect()
}

fn others(base: &[u32], place: usize) -> BTreeSet<u32> {
    let value = base[place];
    let first = place / COLUMNS * COLUMNS;
    let mut others = BTreeSet::from(VALUES);
    others.extend([1, 256, 65_536, 1 << 31].map(|more| value.wrapping_add(more)));
    others.insert(value.wrapping_sub(1));
    others.extend(place.checked_sub(COLUMNS).map(|above| base[above]));
    others.extend(base.get(place + COLUMNS));
    others.extend(&base[first..first + COLUMNS]);
    others.remove(&value);
    others
}

/// Which rows of a long show are broken in every way: the first and the last, and those around
/// each of some openings.
pub fn some_rows(base: &[u32]) -> BTreeSet<usize> {
    let (rows, _) = base.as_chunks::<COLUMNS>();
    let openings: Vec<usize> = (0..rows.len()).filter(|row| rows[*row][1] == 0).collect();
    let mut some = BTreeSet::from([0, 1, rows.len() - 2, rows.len() - 1]);
    for opening in openings.iter().step_by(openings.len().div_ceil(4)) {
        some.extend(opening.saturating_sub(2)..(opening + 3).min(rows.len()));
    }
    some
}

/// Each row taken away, or exchanged with the next.
pub fn shifted(base: &[u32]) -> impl Iterator<Item = Vec<u32>> + '_ {
    let (rows, _) = base.as_chunks::<COLUMNS>();
    let without = (0..rows.len()).map(|row| without(rows, row).concat());
    without.chain((1..rows.len()).map(|row| put(rows, row, row - 1).concat()))
}

/// Rows taken away, doubled, moved to each other place as they are or into the block of that
/// place, and two columns of a row exchanged.
pub fn moved(base: &[u32]) -> impl Iterator<Item = Vec<u32>> + '_ {
    let (rows, _) = base.as_chunks::<COLUMNS>();
    (0..rows.len()).flat_map(move |row| {
        let there = (0..rows.len()).flat_map(move |to| [put(rows, row, to), taken(rows, row, to)]);
        let twice = [&rows[..row + 1], &rows[row..]].concat();
        let changed = there.chain([twice, without(rows, row)]).chain(exchanged(rows, row));
        changed.map(|rows| rows.concat())
    })
}

fn without(rows: &[Row], row: usize) -> Vec<Row> {
    [&rows[..row], &rows[row + 1..]].concat()
}

/// The row put at another place.
fn put(rows: &[Row], row: usize, to: usize) -> Vec<Row> {
    let mut rows = rows.to_vec();
    let one = rows.remove(row);
    rows.insert(to, one);
    rows
}

/// The same, with the block number of the row before that place.
fn taken(rows: &[Row], row: usize, to: usize) -> Vec<Row> {
    let mut rows = put(rows, row, to);
    rows[to][0] = to.checked_sub(1).map_or(0, |before| rows[before][0]);
    rows
}

fn exchanged(rows: &[Row], row: usize) -> impl Iterator<Item = Vec<Row>> + '_ {
    let pairs = (0..COLUMNS).flat_map(|one| (0..one).map(move |other| (one, other)));
    pairs.map(move |(one, other)| {
        let mut rows = rows.to_vec();
        rows[row].swap(one, other);
        rows
    })
}

/// Each block, and all from it on, with other numbers; each block left out, with its number or
/// with the numbers behind it closed up; each block twice.
pub fn renumbered(base: &[u32]) -> impl Iterator<Item = Vec<u32>> + '_ {
    let (rows, _) = base.as_chunks::<COLUMNS>();
    let blocks = rows.last().map_or(0, |row| row[0] + 1);
    (0..blocks).flat_map(move |block| {
        let alone = steps().map(move |more| numbered(rows, more, |k| k == block));
        let onward = steps().map(move |more| numbered(rows, more, |k| k >= block));
        let rest: Vec<Row> = rows.iter().filter(|row| row[0] != block).copied().collect();
        let closed = numbered(&rest, u32::MAX, |k| k > block);
        let to = rows.partition_point(|row| row[0] <= block);
        let from = rows.partition_point(|row| row[0] < block);
        let twice = [&rows[..to], &rows[from..]].concat();
        let open = numbered(&twice[to..], 1, |_| true);
        let next = [&twice[..to], &open].concat();
        alone.chain(onward).chain([rest, closed, twice, next]).map(|rows| rows.concat())
    })
}

/// What is added to a number, so that it falls, rises, or is the same in fewer bits.
fn steps() -> impl Iterator<Item = u32> {
    [1, 2, u32::MAX, 128, 256, 65_536, 1 << 31].into_iter()
}

fn numbered(rows: &[Row], more: u32, which: impl Fn(u32) -> bool) -> Vec<Row> {
    let mut rows = rows.to_vec();
    for row in rows.iter_mut().filter(|row| which(row[0])) {
        row[0] = row[0].wrapping_add(more);
    }
    rows
}

/// The show with numbers missing at its end, down to none, or with more of them: zeros, or its last
/// row again, up to the most rows, one more, and as many as 16 bits do not count.
pub fn resized(base: &[u32]) -> impl Iterator<Item = Vec<u32>> + '_ {
    let shorter = (0..base.len()).map(|length| base[..length].to_vec());
    let more = (1..=2 * COLUMNS).map(|more| base.len() + more);
    let most = ROWS * COLUMNS;
    let lengths = more.chain([most - 1, most, most + 1, most + COLUMNS - 1, most + COLUMNS]);
    let longer = lengths.chain([65_536 * COLUMNS, 65_536 * COLUMNS + base.len()]);
    let zeros = longer.filter(|length| *length > base.len()).map(|length| {
        let mut rows = base.to_vec();
        rows.resize(length, 0);
        rows
    });
    let row = &base[base.len() - COLUMNS..];
    let again = [1, ROWS - base.len() / COLUMNS, ROWS + 1 - base.len() / COLUMNS];
    shorter.chain(zeros).chain(again.map(|times| [base, &row.repeat(times)].concat()))
}
