//! Bytes to rows and back.

use super::check::{Show, EMPTY};
use super::checked;
use crate::limits::{Refusal, Row, BYTES, COLUMNS, GIVEN, NAMES, ROWS};

/// The most digits of a value.
const DIGITS: usize = 5;

pub fn read(file: &[u8], rows: &mut [u32], given: &mut [u32]) -> Result<(), Refusal> {
    let mut parsed = [[0; COLUMNS]; ROWS];
    let count = parse(file, &mut parsed)?;
    if count > ROWS {
        return Err(Refusal { number: 4, place: 0 });
    }
    hand_out(&parsed[..count], rows, given).map_err(at_line)
}

/// Checks rows and copies them to where they are wanted; places are rows.
pub fn hand_out(all: &[Row], rows: &mut [u32], given: &mut [u32]) -> Result<(), Refusal> {
    let numbers = all.as_flattened();
    let mut room = EMPTY;
    let show = Show::of(numbers, &mut room)?;
    if rows.len() < numbers.len() || given.len() < GIVEN {
        return Err(Refusal { number: 11, place: 0 });
    }
    rows[..numbers.len()].copy_from_slice(numbers);
    given[..GIVEN].copy_from_slice(&[all.len() as u32, show.count as u32, show.cues()]);
    Ok(())
}

/// A refusal of a row, at its line; others have no row.
fn at_line(refusal: Refusal) -> Refusal {
    let line = refusal.place + u32::from(refusal.place > 0);
    Refusal { place: line, ..refusal }
}

/// Parses all lines, keeps the first 1,024 and gives how many there are.
pub fn parse(file: &[u8], rows: &mut [Row; ROWS]) -> Result<usize, Refusal> {
    if file.len() > BYTES {
        return Err(Refusal { number: 1, place: 0 });
    }
    let Some(mut rest) = file.strip_prefix(NAMES) else {
        return Err(Refusal { number: 2, place: 1 });
    };
    let (mut count, mut spare) = (0, [0; COLUMNS]);
    while !rest.is_empty() {
        let row = rows.get_mut(count).unwrap_or(&mut spare);
        rest = line(rest, row).ok_or(Refusal { number: 3, place: count as u32 + 2 })?;
        count += 1;
    }
    Ok(count)
}

/// Takes a line of values off the text.
fn line<'a>(mut text: &'a [u8], row: &mut Row) -> Option<&'a [u8]> {
    for (column, number) in row.iter_mut().enumerate() {
        let end = if column + 1 == COLUMNS { b'\n' } else { b',' };
        (*number, text) = value(text, end)?;
    }
    Some(text)
}

/// Takes a value and the byte after it off the text. Five digits fit without a test, so the
/// largest value is looked at once, behind them.
pub fn value(text: &[u8], end: u8) -> Option<(u32, &[u8])> {
    let (first, mut text) = text.split_first()?;
    let mut number = u32::from(first.wrapping_sub(b'0'));
    if number > 9 {
        return None;
    }
    for _ in 0..DIGITS {
        let (byte, rest) = text.split_first()?;
        text = rest;
        if *byte == end {
            return (number <= 65_535).then_some((number, text));
        }
        let digit = u32::from(byte.wrapping_sub(b'0'));
        if digit > 9 {
            return None;
        }
        number = number * 10 + digit;
    }
    None
}

pub fn write(rows: &[u32], out: &mut [u8], given: &mut [u32]) -> Result<(), Refusal> {
    let mut room = EMPTY;
    let show = checked(rows, &mut room, true, given)?;
    let text: u32 = rows.iter().map(|number| text_length(*number)).sum();
    let length = NAMES.len() + text as usize;
    let Some(out) = out.get_mut(..length) else {
        return Err(Refusal { number: 11, place: 0 });
    };
    out[..NAMES.len()].copy_from_slice(NAMES);
    let mut end = NAMES.len();
    for row in show.rows {
        for number in row {
            end = put(out, end, *number);
        }
        out[end - 1] = b'\n';
    }
    given[0] = length as u32;
    Ok(())
}

/// Digits and comma of a number of accepted rows, which is at most 263.
const fn text_length(number: u32) -> u32 {
    2 + (number > 9) as u32 + (number > 99) as u32
}

/// A number with its comma: four bytes, and how many of them count.
#[derive(Clone, Copy)]
struct Text {
    bytes: [u8; 4],
    length: u32,
}

static TEXTS: [Text; 512] = texts();

const fn texts() -> [Text; 512] {
    let mut texts = [Text { bytes: [b','; 4], length: 0 }; 512];
    let mut number = 0;
    while number < texts.len() {
        let text = &mut texts[number];
        text.length = text_length(number as u32);
        let (mut place, mut rest) = (text.length as usize - 1, number);
        while place > 0 {
            place -= 1;
            text.bytes[place] = b'0' + (rest % 10) as u8;
            rest /= 10;
        }
        number += 1;
    }
    texts
}

/// Writes a number with its comma; gives the place after it.
fn put(out: &mut [u8], begin: usize, number: u32) -> usize {
    let text = &TEXTS[number as usize % 512];
    let end = begin + text.length as usize;
    match out.get_mut(begin..begin + 4) {
        Some(place) => place.copy_from_slice(&text.bytes),
        None => out[begin..end].copy_from_slice(&text.bytes[..end - begin]),
    }
    end
}
