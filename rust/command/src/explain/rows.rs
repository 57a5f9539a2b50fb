//! Refusals 4 to 8: how many rows there are, and each row behind those before it.

use show::{DESK_BLOCKS, MAX_BLOCKS, MAX_JOINS, MAX_LABEL, MAX_OWN};

use super::{Cause, Column, Explained, Fault};
use crate::blocks::{Row, LINK, OPENING, USE};
use crate::way::Way;
use crate::words::{Grouped, Many};

/// What is wrong first in these rows of a file by checks 4 to 8.
pub fn checked(rows: &[Row], way: Way) -> Option<Explained> {
    if rows.is_empty() || rows.len() > way.most_rows() {
        return Some(Explained::of(bad_count(rows.len(), way)));
    }
    let mut seen = Seen::before_the_file(way);
    for (row, line) in rows.iter().zip(2..) {
        if let Some(fault) = seen.fault(row) {
            return Some(Explained::at(line, fault));
        }
        seen.add(row);
    }
    None
}

/// Check 4: too few or too many rows.
fn bad_count(many: usize, way: Way) -> Cause {
    let rows = Grouped(many as u64);
    match (many, way) {
        (0, Way::Alone) => Cause::NoRows {},
        (0, Way::Desk) => Cause::DeskNoRows {},
        (_, Way::Alone) => Cause::TooManyRows { rows },
        (_, Way::Desk) => Cause::DeskTooManyRows { rows },
    }
}

/// What the checks of a row know of the rows before it.
struct Seen {
    /// How the file is read.
    way: Way,
    /// The joins of each block opened so far.
    joins: Vec<u32>,
    /// The own cues of the block opened last.
    own: u32,
    /// The row before, unless this is the first of the file.
    before: Option<Row>,
}

impl Seen {
    /// Before the first row of a file.
    fn before_the_file(way: Way) -> Seen {
        let mut seen = Seen { way, joins: Vec::new(), own: 0, before: None };
        way.rows_before().iter().for_each(|row| seen.add(row));
        Seen { before: None, ..seen }
    }

    fn add(&mut self, row: &Row) {
        if row[1] == OPENING {
            self.joins.push(row[2]);
            self.own = row[3];
        }
        self.before = Some(*row);
    }

    fn fault(&self, row: &Row) -> Option<Fault> {
        self.misplaced(row)
            .or_else(|| self.out_of_range(row))
            .or_else(|| self.named_twice(row))
            .or_else(|| self.out_of_order(row))
    }

    /// The joins of the open block, which is the last.
    fn open_joins(&self) -> u32 {
        self.joins.last().copied().unwrap_or(0)
    }

    /// Check 5: a block number or a kind that cannot follow here.
    fn misplaced(&self, &[block, kind, ..]: &Row) -> Option<Fault> {
        let at = |column, cause| Some((Some(column), cause));
        match (kind, &self.before) {
            (OPENING, _) => self.not_next(block),
            (LINK | USE, None) => at(Column::KIND, self.first_kind(kind)),
            (LINK | USE, Some(before)) => {
                self.not_open(block).or_else(|| match (before[1], kind) {
                    (USE, LINK) => at(Column::KIND, Cause::LinkBehindUse {}),
                    _ => None,
                })
            }
            _ => at(Column::KIND, Cause::Kind { kind }),
        }
    }

    /// A block that cannot be opened here.
    fn not_next(&self, block: u32) -> Option<Fault> {
        let next = self.joins.len();
        let cause = match block as usize {
            _ if next == MAX_BLOCKS => return Some((None, self.too_many_blocks())),
            opened if opened == next => return None,
            _ if self.before.is_none() => self.first_block(block),
            opened if opened > next => Cause::Jumps { block, next },
            _ => Cause::OpenedAgain { block, next },
        };
        Some((Some(Column::BLOCK), cause))
    }

    fn first_kind(&self, kind: u32) -> Cause {
        match self.way {
            Way::Alone => Cause::FirstKind { kind },
            Way::Desk => Cause::DeskFirstKind { kind },
        }
    }

    fn first_block(&self, block: u32) -> Cause {
        match self.way {
            Way::Alone if block as usize == DESK_BLOCKS => Cause::MeantForDesk { block },
            Way::Alone => Cause::FirstBlock { block },
            Way::Desk => Cause::DeskFirstBlock { block },
        }
    }

    fn too_many_blocks(&self) -> Cause {
        match self.way {
            Way::Alone => Cause::TooManyBlocks {},
            Way::Desk => Cause::DeskTooManyBlocks {},
        }
    }

    /// A block that is not the open one.
    fn not_open(&self, block: u32) -> Option<Fault> {
        let open = self.joins.len().saturating_sub(1);
        let cause = match block as usize {
            number if number == open => return None,
            number if number > open => Cause::NotOpened { block, open },
            _ => Cause::Left { block, open },
        };
        Some((Some(Column::BLOCK), cause))
    }

    /// Check 6: a value out of its range, or an idle column that is not 0.
    fn out_of_range(&self, row: &Row) -> Option<Fault> {
        label_fault(row)
            .or_else(|| own_fault(row))
            .or_else(|| self.columns(row).find_map(|column| self.cue_fault(row, column)))
            .or_else(|| self.idle_fault(row))
    }

    /// How many of the columns from a on carry a value.
    fn carrying(&self, row: &Row) -> usize {
        match row[1] {
            OPENING => 1,
            LINK => 2,
            _ => self.joins.get(row[2] as usize).map_or(0, |joins| *joins as usize),
        }
    }

    /// The columns in which a link or a use names a cue.
    fn columns(&self, row: &Row) -> impl Iterator<Item = Column> {
        let named = if row[1] == OPENING { 0 } else { self.carrying(row) };
        (Column::A.0..Column::A.0 + named).map(Column)
    }

    fn cue_fault(&self, row: &Row, column: Column) -> Option<Fault> {
        let (cue, block) = (column.of(row), row[0]);
        let (own, joins) = (self.own, self.open_joins());
        let cues = own + joins;
        let cause = match cues {
            _ if (1..=cues).contains(&cue) => return None,
            0 => Cause::NoCues { cue, block },
            _ if row[1] == USE => {
                let (many, last) =
                    (self.carrying(row), Column(Column::A.0 + self.carrying(row) - 1));
                let joins = Many(many as u32, "join");
                Cause::UseCue { cue, used: row[2], joins, last, block, cues }
            }
            _ => {
                let (own, joins) = (Many(own, "own cue"), Many(joins, "join"));
                Cause::Cue { cue, block, cues, own, joins }
            }
        };
        Some((Some(column), cause))
    }

    fn idle_fault(&self, row: &Row) -> Option<Fault> {
        let first = Column::A.0 + self.carrying(row);
        let column = (first..row.len()).map(Column).find(|column| column.of(row) != 0)?;
        let value = column.of(row);
        let cause = match row[1] {
            OPENING => Cause::IdleInOpening { value },
            LINK => Cause::IdleInLink { value },
            _ => {
                let joins = Many(self.carrying(row) as u32, "join");
                Cause::IdleInUse { value, used: row[2], joins, first: Column(first) }
            }
        };
        Some((Some(column), cause))
    }

    /// Check 7: a cue that a link or a use names twice. The column is that of the second time.
    fn named_twice(&self, row: &Row) -> Option<Fault> {
        self.columns(row).find_map(|first| {
            let cue = first.of(row);
            let again = self.columns(row).find(|other| *other > first && other.of(row) == cue)?;
            let cause = match row[1] {
                LINK => Cause::LinkTwice { cue },
                _ => Cause::UseTwice { cue, first },
            };
            Some((Some(again), cause))
        })
    }

    /// Check 8: a link that does not rise, or a use that falls. The column is the first one that
    /// differs.
    fn out_of_order(&self, row: &Row) -> Option<Fault> {
        let last = match row[1] {
            OPENING => return None,
            LINK => Column::B.0,
            _ => row.len() - 1,
        };
        let before = self.before.as_ref().filter(|before| before[1] == row[1])?;
        let mut key = (Column::A.0..=last).map(Column).chain([Column::LABEL]);
        match key.find(|column| column.of(row) != column.of(before)) {
            None if row[1] == LINK => Some((None, Cause::SameLink {})),
            Some(column) if column.of(row) < column.of(before) => {
                let (value, before) = (column.of(row), column.of(before));
                let cause = match row[1] {
                    LINK => Cause::LinkFalls { value, before },
                    _ => Cause::UseFalls { value, before },
                };
                Some((Some(column), cause))
            }
            _ => None,
        }
    }
}

/// A label out of its range: joins of an opening, label of a link, block of a use.
fn label_fault(&[block, kind, label, ..]: &Row) -> Option<Fault> {
    let cause = match kind {
        OPENING if label as usize > MAX_JOINS => Cause::Joins { joins: label },
        LINK if !(1..=MAX_LABEL).contains(&label) => Cause::Label { label },
        USE if block == 0 => return Some((Some(Column::KIND), Cause::UseInFirst {})),
        USE if label >= block => Cause::UseOf { label, block, last: block - 1 },
        _ => return None,
    };
    Some((Some(Column::LABEL), cause))
}

fn own_fault(&[_, kind, _, own, ..]: &Row) -> Option<Fault> {
    (kind == OPENING && own > MAX_OWN).then_some((Some(Column::A), Cause::Own { own }))
}
