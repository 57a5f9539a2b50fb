//! Damaged files and rows. All kinds of damage have one type, so that one can be picked.
#![allow(clippy::ptr_arg)]

use super::padding::values;
use super::prng::Prng;
use crate::limits::{BYTES, COLUMNS, NAMES, ROWS};

type Damage<T> = fn(&mut Prng, &mut Vec<T>);

/// Damages a file in one place, now and then in a second one.
pub fn file(prng: &mut Prng, file: &mut Vec<u8>) {
    const KINDS: [Damage<u8>; 14] = [
        drop_byte,
        double_byte,
        put_byte,
        put_byte,
        change_byte,
        new_value,
        new_value,
        pad_value,
        pad_value,
        value_count,
        extra_line,
        cut,
        names,
        length,
    ];
    damage(prng, file, &KINDS);
}

/// Damages rows in one place, now and then in a second one.
pub fn rows(prng: &mut Prng, rows: &mut Vec<u32>) {
    const KINDS: &[Damage<u32>] = &[
        number,
        number,
        number,
        near_number,
        near_number,
        move_value,
        move_value,
        swap_rows,
        repeat_row,
        drop_row,
        ragged,
        row_count,
    ];
    damage(prng, rows, KINDS);
}

fn damage<T>(prng: &mut Prng, item: &mut Vec<T>, kinds: &[Damage<T>]) {
    (prng.pick(kinds))(prng, item);
    if prng.one_in(6) {
        (prng.pick(kinds))(prng, item);
    }
}

/// A place to damage: anywhere, a line's end, or a comma.
fn place(prng: &mut Prng, file: &[u8]) -> usize {
    let wanted = *prng.pick(&[None, Some(b'\n'), Some(b',')]);
    let places: Vec<usize> =
        (0..file.len()).filter(|place| wanted.is_none_or(|byte| file[*place] == byte)).collect();
    if places.is_empty() {
        0
    } else {
        *prng.pick(&places)
    }
}

fn drop_byte(prng: &mut Prng, file: &mut Vec<u8>) {
    let place = place(prng, file);
    if place < file.len() {
        file.remove(place);
    }
}

fn double_byte(prng: &mut Prng, file: &mut Vec<u8>) {
    let place = place(prng, file);
    if place < file.len() {
        file.insert(place, file[place]);
    }
}

fn odd_byte(prng: &mut Prng) -> u8 {
    let random = prng.bits() as u8;
    *prng.pick(&[b'\r', b' ', b'+', b'-', b'0', b'1', b',', b'\n', b'.', b'/', b':', 0, random])
}

/// Puts an odd byte before a place or after it.
fn put_byte(prng: &mut Prng, file: &mut Vec<u8>) {
    let place = place(prng, file) + prng.below(2);
    file.insert(place.min(file.len()), odd_byte(prng));
}

fn change_byte(prng: &mut Prng, file: &mut Vec<u8>) {
    let place = place(prng, file);
    if place < file.len() {
        file[place] = odd_byte(prng);
    }
}

/// Texts in the place of a value: some are values, padded or not.
const TEXTS: [&str; 28] = [
    "",
    "00",
    "01",
    "00000",
    "000000",
    "00001",
    "000001",
    "00256",
    "+1",
    "-1",
    "-0",
    "+0001",
    " 1",
    "1 ",
    "1.0",
    "1e1",
    "0x1",
    "65535",
    "65536",
    "065535",
    "065536",
    "65540",
    "70000",
    "99999",
    "100000",
    "4294967297",
    "18446744073709551617",
    "000000000001",
];

/// Puts another text in the place of a value.
fn new_value(prng: &mut Prng, file: &mut Vec<u8>) {
    let values = values(file);
    if values.is_empty() {
        return;
    }
    let (begin, end) = *prng.pick(&values);
    let text = match prng.below(3) {
        0 => prng.within(0, 300).to_string(),
        _ => prng.pick(&TEXTS).to_string(),
    };
    file.splice(begin..end, text.bytes());
}

/// Zeros before a value, up to seven digits; six are too many.
fn pad_value(prng: &mut Prng, file: &mut Vec<u8>) {
    let values = values(file);
    if values.is_empty() {
        return;
    }
    let (begin, end) = *prng.pick(&values);
    let zeros = (2 + prng.below(6)).saturating_sub(end - begin);
    file.splice(begin..begin, vec![b'0'; zeros]);
}

/// Ten or twelve values in a line.
fn value_count(prng: &mut Prng, file: &mut Vec<u8>) {
    let values = values(file);
    if values.is_empty() {
        return;
    }
    let (begin, end) = *prng.pick(&values);
    if prng.one_in(2) {
        file.splice(end..end, *b",0");
    } else {
        file.drain(begin..(end + 1).min(file.len()));
    }
}

/// A line too many: empty, of names, or of zeros, at the beginning or the end.
fn extra_line(prng: &mut Prng, file: &mut Vec<u8>) {
    let line = *prng.pick(&[&b"\n"[..], b"\r\n", NAMES, b"0,0,0,0,0,0,0,0,0,0,0\n", b"0", b"\0"]);
    let place = *prng.pick(&[0, NAMES.len().min(file.len()), file.len()]);
    file.splice(place..place, line.iter().copied());
}

fn cut(prng: &mut Prng, file: &mut Vec<u8>) {
    let length = prng.below(file.len() + 1);
    file.truncate(length);
}

/// Damage in the first line.
fn names(prng: &mut Prng, file: &mut Vec<u8>) {
    let place = prng.below(NAMES.len());
    match prng.below(6) {
        0 => file.truncate(place),
        1 if place < file.len() => file[place] = odd_byte(prng),
        2 if place < file.len() => file[place] = file[place].to_ascii_uppercase(),
        3 => file.truncate(NAMES.len()),
        4 => file.insert(place.min(file.len()), odd_byte(prng)),
        _ => {
            file.drain(..NAMES.len().min(file.len()));
        }
    }
}

/// Around the longest length: filled up with lines of zeros, then cut or stretched.
fn length(prng: &mut Prng, file: &mut Vec<u8>) {
    const ZEROS: [&[u8]; 3] = [
        b"0,0,0,0,0,0,0,0,0,0,0\n",
        b"0,0,0,0,0,0,0,0,0,0,0\n",
        b"00000,00000,00000,00000,00000,00000,00000,00000,00000,00000,00000\n",
    ];
    let zeros = *prng.pick(&ZEROS);
    let lines = *prng.pick(&[ROWS - 2, ROWS - 1, ROWS, ROWS + 1, BYTES / zeros.len() - 1, 4000]);
    file.truncate(file.len().min(BYTES));
    for _ in 0..lines {
        file.extend(zeros);
    }
    match prng.below(5) {
        0 => file.resize(BYTES, b'\n'),
        1 => file.resize(BYTES + 1, b'\n'),
        2 => file.resize(BYTES, b'0'),
        3 => change_byte(prng, file),
        _ => {}
    }
}

fn odd_number(prng: &mut Prng) -> u32 {
    let random = prng.bits() as u32;
    let small = prng.within(0, 20);
    *prng.pick(&[
        0,
        1,
        2,
        3,
        8,
        9,
        127,
        128,
        254,
        255,
        256,
        263,
        264,
        65_535,
        65_536,
        65_537,
        1 << 31,
        u32::MAX,
        u32::MAX - 1,
        small,
        small,
        random,
    ])
}

fn number(prng: &mut Prng, rows: &mut Vec<u32>) {
    if !rows.is_empty() {
        let place = prng.below(rows.len());
        rows[place] = odd_number(prng);
    }
}

/// One more or one less, or the number of the same column in another row.
fn near_number(prng: &mut Prng, rows: &mut Vec<u32>) {
    if rows.is_empty() {
        return;
    }
    let place = prng.below(rows.len());
    let other = place % COLUMNS + COLUMNS * prng.below(rows.len() / COLUMNS + 1);
    rows[place] = match (prng.below(3), rows.get(other)) {
        (0, _) => rows[place].wrapping_add(1),
        (1, _) | (_, None) => rows[place].wrapping_sub(1),
        (_, Some(number)) => *number,
    };
}

/// A value put in another column of its row.
fn move_value(prng: &mut Prng, rows: &mut Vec<u32>) {
    let Some(place) = row_place(prng, rows) else { return };
    let (one, other) = (prng.below(COLUMNS), 3 + prng.below(COLUMNS - 3));
    rows[place + other] = rows[place + one];
}

/// The first number of a random row, if there is a whole row.
fn row_place(prng: &mut Prng, rows: &[u32]) -> Option<usize> {
    let count = rows.len() / COLUMNS;
    (count > 0).then(|| COLUMNS * prng.below(count))
}

fn swap_rows(prng: &mut Prng, rows: &mut Vec<u32>) {
    let Some(one) = row_place(prng, rows) else { return };
    let Some(other) = row_place(prng, rows) else { return };
    for column in 0..COLUMNS {
        rows.swap(one + column, other + column);
    }
}

fn repeat_row(prng: &mut Prng, rows: &mut Vec<u32>) {
    let Some(place) = row_place(prng, rows) else { return };
    let row = rows[place..place + COLUMNS].to_vec();
    rows.splice(place..place, row);
}

fn drop_row(prng: &mut Prng, rows: &mut Vec<u32>) {
    let Some(place) = row_place(prng, rows) else { return };
    rows.drain(place..place + COLUMNS);
}

/// A length that is no multiple of eleven.
fn ragged(prng: &mut Prng, rows: &mut Vec<u32>) {
    let length = match prng.below(3) {
        0 => rows.len().saturating_sub(prng.below(COLUMNS)),
        1 => rows.len() + prng.below(COLUMNS),
        _ => prng.below(2 * COLUMNS),
    };
    rows.resize(length, 0);
}

/// No rows, or rows around the most that are allowed.
fn row_count(prng: &mut Prng, rows: &mut Vec<u32>) {
    let count = *prng.pick(&[0, 1, 2, ROWS - 1, ROWS, ROWS + 1]);
    match row_place(prng, rows) {
        Some(place) if prng.one_in(2) => {
            let row = rows[place..place + COLUMNS].to_vec();
            while rows.len() < count * COLUMNS {
                rows.extend(&row);
            }
        }
        _ => rows.resize(count * COLUMNS, 0),
    }
}
