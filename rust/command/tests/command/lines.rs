//! Explanations that name no column: with the line set right as they say, they go away.

use std::collections::BTreeMap;

use second::limits::Row;
use second::naive::desk::table;
use second::naive::file::parse;
use show_command::explain::{Cause, Explained};
use show_command::way::Way;
use show_command::words::{Grouped, Many};

use crate::common::NAMES;
use crate::{explained, files};

/// A line that is a row.
const ROW: &str = "0,0,0,0,0,0,0,0,0,0,0\n";

/// The lines of a file, each with its line feed.
fn lines(file: &[u8]) -> Vec<&[u8]> {
    file.split_inclusive(|byte| *byte == b'\n').collect()
}

/// A line without its line feed, carriage returns and commas at its end.
fn bare(line: &[u8]) -> &[u8] {
    let end = line.iter().rposition(|byte| !b"\r\n,".contains(byte)).map_or(0, |place| place + 1);
    &line[..end]
}

/// The first values of a line, filled up to eleven.
fn eleven(line: &[u8], kept: usize) -> Vec<u8> {
    let values = bare(line).split(|byte| *byte == b',').take(kept);
    let filled: Vec<&[u8]> = values.chain(std::iter::repeat(&b"0"[..])).take(11).collect();
    [&filled.join(&b","[..])[..], b"\n"].concat()
}

/// The line as its explanation wants it; nothing where that is not said of one line.
fn mended(line: &[u8], cause: &Cause) -> Option<Vec<u8>> {
    Some(match *cause {
        Cause::Blank { .. } | Cause::NamesAgain {} => ROW.as_bytes().to_vec(),
        Cause::Return {} | Cause::CommaBehind { .. } | Cause::Unended {} => {
            [bare(line), b"\n"].concat()
        }
        Cause::TooFew { values: Many(values, _), .. }
        | Cause::Cut { values: Many(values, _), .. } => {
            assert_eq!(bare(line).split(|byte| *byte == b',').count(), values as usize);
            eleven(line, values as usize)
        }
        Cause::TooMany { values: Many(values, _), .. } => {
            assert!(bare(line).split(|byte| *byte == b',').count() <= values as usize);
            eleven(line, 11)
        }
        _ if cause.number() == 2 => NAMES.as_bytes().to_vec(),
        _ => return None,
    })
}

/// The totals of all blocks, counted anew.
fn totals(rows: &[Row]) -> Vec<u128> {
    let mut totals: Vec<u128> = Vec::new();
    for [_, kind, label, own, ..] in rows {
        match kind {
            0 => totals.push((*own).into()),
            1 => {}
            _ => *totals.last_mut().expect("a block is open") += totals[*label as usize],
        }
    }
    totals
}

/// The rows that stand before those of a file.
fn before(way: Way) -> Vec<Row> {
    match way {
        Way::Alone => Vec::new(),
        Way::Desk => table(),
    }
}

/// Looks at an explanation that is not of one line's text.
fn hold_rows(way: Way, file: &[u8], found: &Explained) {
    let before = before(way);
    let row = found.line.map_or(0, |line| before.len() + line as usize - 2);
    let rows = [before, parse(file).unwrap_or_default()].concat();
    match found.cause {
        Cause::TooLongToRead {} => assert!(file.len() > 65_536),
        Cause::NoRows {} | Cause::DeskNoRows {} => assert_eq!(file, NAMES.as_bytes()),
        Cause::TooManyRows { rows: Grouped(many) }
        | Cause::DeskTooManyRows { rows: Grouped(many) } => {
            assert_eq!(many as usize, lines(file).len() - 1);
            assert!(rows.len() > 1024);
        }
        Cause::TooManyBlocks {} | Cause::DeskTooManyBlocks {} => {
            let opened = rows[..=row].iter().filter(|row| row[1] == 0).count();
            assert_eq!(opened, 129);
        }
        Cause::SameLink {} => assert_eq!(rows[row], rows[row - 1]),
        Cause::Total { block, total: Grouped(total) } => {
            let totals = totals(&rows);
            assert_eq!(rows[row][..2], [block as u32, 0]);
            assert_eq!(u128::from(total), totals[block]);
            assert!(totals[..block].iter().all(|total| *total < 1 << 31));
        }
        ref other => panic!("nothing is known of {other:?}"),
    }
}

/// Looks at what is said of a file that is read so.
fn hold(way: Way, file: &[u8], found: &Explained) {
    let lines = lines(file);
    let place = found.line.map_or(0, |line| line as usize - 1);
    let line = lines.get(place).copied().unwrap_or_default();
    let Some(mended) = mended(line, &found.cause) else { return hold_rows(way, file, found) };
    let (before, behind) = (&lines[..place], lines.get(place + 1..).unwrap_or_default());
    let better = [&before.concat()[..], &mended, &behind.concat()].concat();
    let then = explained::of(way, &better).map(|then| (then.line, then.cause.name()));
    assert_ne!(then, Some((found.line, found.cause.name())), "{}", file.escape_ascii());
}

/// Causes of files that name no column.
const WITHOUT_COLUMN: usize = 32;

#[test]
fn the_line_set_right_helps() {
    let mut seen: BTreeMap<&str, u32> = BTreeMap::new();
    files::each(|way, file| {
        let Some(found) = explained::of(way, file).filter(|found| found.column.is_none()) else {
            return;
        };
        *seen.entry(found.cause.name()).or_default() += 1;
        hold(way, file, &found);
    });
    assert_eq!(seen.len(), WITHOUT_COLUMN, "{seen:?}");
}
