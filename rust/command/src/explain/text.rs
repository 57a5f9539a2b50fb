//! Refusals 1, 3 and 15: the length of a show file, and lines that are not eleven values, or in a wait file two.

use show::{MAX_FILE, MAX_VALUE};

use super::names;
use super::{Cause, Column, Explained, Fault, Form};
use crate::blocks::Row;
use crate::words::{Grouped, Many};

/// Digits of a value, at most.
const MOST_DIGITS: usize = 5;

/// The rows of a show file, or what is wrong first in its text.
pub fn rows(file: &[u8], size: Option<u64>) -> Result<Vec<Row>, Explained> {
    if file.len() > MAX_FILE {
        return Err(Explained::of(too_long(size)));
    }
    lines(file, Form::Show)
}

/// The values of the lines behind the names, or what is wrong first in the text of a file.
pub fn lines<const N: usize>(file: &[u8], form: Form) -> Result<Vec<[u32; N]>, Explained> {
    let mut lines = file.split_inclusive(|byte| *byte == b'\n').zip(1..);
    let first = lines.next().map_or(&b""[..], |(line, _)| line);
    names::checked(first, form).map_err(|fault| Explained::at(1, fault))?;
    let values = |(line, number)| values(line, form).map_err(|fault| Explained::at(number, fault));
    lines.map(values).collect()
}

fn too_long(size: Option<u64>) -> Cause {
    match size {
        Some(size) => Cause::TooLong { bytes: Grouped(size) },
        None => Cause::TooLongToRead {},
    }
}

/// The values of a line, or what is wrong with it, from left to right.
fn values<const N: usize>(line: &[u8], form: Form) -> Result<[u32; N], Fault> {
    whole(line, form)?;
    let mut values = [0; N];
    let mut rest = line;
    for (place, value) in values.iter_mut().enumerate() {
        let end = rest.iter().position(|byte| !byte.is_ascii_digit()).unwrap_or(rest.len());
        let (digits, behind) = rest.split_at(end);
        if digits.is_empty() {
            return Err(absent(place, behind, form));
        }
        *value = value_of(digits).map_err(|cause| (Some(Column(place)), cause))?;
        rest = ended(place, line, behind, form)?;
    }
    Ok(values)
}

/// Lines that are wrong as a whole.
fn whole(line: &[u8], form: Form) -> Result<(), Fault> {
    match line {
        b"\n" => Err((None, Cause::Blank { is: form.is() })),
        _ if names::text_of(line) == form.names().as_bytes() => Err((None, Cause::NamesAgain {})),
        _ => Ok(()),
    }
}

/// The number that at least one digit stands for.
fn value_of(digits: &[u8]) -> Result<u32, Cause> {
    if digits.len() > MOST_DIGITS {
        return Err(Cause::Digits { digits: digits.len() });
    }
    match digits.iter().fold(0, |value, digit| 10 * value + u32::from(digit - b'0')) {
        value if value > MAX_VALUE => Err(Cause::Over { value }),
        value => Ok(value),
    }
}

/// What stands where a value should begin.
fn absent(place: usize, rest: &[u8], form: Form) -> Fault {
    match rest.first() {
        None => (None, cut(place, form)),
        Some(b',' | b'\n') => (Some(Column(place)), Cause::NoValue {}),
        Some(byte) => stray(place, *byte, rest),
    }
}

/// The rest of a line behind a value and what ends it, or what stands there.
fn ended<'a>(place: usize, line: &[u8], rest: &'a [u8], form: Form) -> Result<&'a [u8], Fault> {
    let last = place + 1 == form.values();
    match rest {
        [b',', rest @ ..] if !last => Ok(rest),
        [b'\n', rest @ ..] if last => Ok(rest),
        [] if last => Err((None, Cause::Unended {})),
        [] => Err((None, cut(place + 1, form))),
        [b'\n', ..] => Err((None, Cause::TooFew { values: many(place + 1), has: form.has() })),
        [b',', ..] => Err((None, too_many(line, form))),
        [byte, ..] => Err(stray(place, *byte, rest)),
    }
}

/// A file that ends behind so many values of a line.
fn cut(values: usize, form: Form) -> Cause {
    Cause::Cut { values: many(values), line: form.line(), has: form.has() }
}

/// A line with a comma behind its last value.
fn too_many(line: &[u8], form: Form) -> Cause {
    let commas = names::text_of(line).iter().filter(|byte| **byte == b',').count();
    let has = form.has();
    match names::text_of(line).strip_suffix(b",") {
        Some(_) if commas == form.values() => Cause::CommaBehind { line: form.line() },
        Some(_) => Cause::TooMany { values: many(commas), has },
        None => Cause::TooMany { values: many(commas + 1), has },
    }
}

fn many(many: usize) -> Many {
    Many(many as u32, "value")
}

/// A byte that belongs to no value, with the rest of the line from it on.
fn stray(place: usize, byte: u8, rest: &[u8]) -> Fault {
    let cause = match byte {
        b'\r' if names::text_of(rest).is_empty() => return (None, Cause::Return {}),
        b'\r' => Cause::ReturnInside {},
        b' ' => Cause::Space {},
        b'\t' => Cause::Tab {},
        b'+' | b'-' => Cause::Sign { sign: byte.into() },
        b'.' => Cause::Point {},
        b'"' | b'\'' => Cause::Quote {},
        b';' => Cause::Semicolon {},
        _ if byte.is_ascii_alphabetic() => Cause::Letter { letter: byte.into() },
        _ if byte.is_ascii_graphic() => Cause::Character { character: byte.into() },
        _ => Cause::Byte { byte },
    };
    (Some(Column(place)), cause)
}
