//! Refusal 2, and 15 at line 1: the line of names.

use super::{Cause, Column, Fault, Form};
use crate::words::Many;

/// Bytes of a wrong name that are shown, at most.
const MOST_SHOWN: usize = 16;

/// A line without what ends it: a line feed, carriage returns before it, or both.
pub fn text_of(line: &[u8]) -> &[u8] {
    let mut text = line.strip_suffix(b"\n").unwrap_or(line);
    while let Some(shorter) = text.strip_suffix(b"\r") {
        text = shorter;
    }
    text
}

/// What is wrong with the first line, which is empty if the file is.
pub fn checked(line: &[u8], form: Form) -> Result<(), Fault> {
    if line.strip_suffix(b"\n") == Some(form.names().as_bytes()) {
        return Ok(());
    }
    let whole = begun(line, form).or_else(|| ended(line, form));
    Err(match whole.or_else(|| respelt(text_of(line), form)) {
        Some(cause) => (None, cause),
        None => differing(text_of(line), form),
    })
}

/// What is wrong at the beginning of the line.
fn begun(line: &[u8], form: Form) -> Option<Cause> {
    let (names, file) = (form.names(), form.file());
    let begins = |one: u8, other: u8| names.as_bytes().starts_with(&[one, other]);
    match *line {
        [] => Some(Cause::Empty { names }),
        [0xEF, 0xBB, 0xBF, ..] => Some(Cause::ByteOrderMark { file }),
        [0xFF, 0xFE, ..] | [0xFE, 0xFF, ..] => Some(Cause::TwoBytes { file }),
        [one, 0, other, 0, ..] | [0, one, 0, other, ..] if begins(one, other) => {
            Some(Cause::TwoBytes { file })
        }
        _ if text_of(line).is_empty() => Some(Cause::NamesBlank { names }),
        _ => None,
    }
}

/// What is wrong at the end of a line that is right so far.
fn ended(line: &[u8], form: Form) -> Option<Cause> {
    let names = form.names();
    match line.strip_prefix(names.as_bytes()) {
        Some([]) => Some(Cause::NamesUnended {}),
        Some([b'\r', ..]) => Some(Cause::NamesReturn {}),
        Some([b',', rest @ ..]) if text_of(rest).is_empty() => Some(Cause::NamesComma {}),
        _ if names.as_bytes().starts_with(line) => Some(Cause::NamesCut { names }),
        _ => None,
    }
}

/// What is wrong all over the line, where it is the names but for that, or is values.
fn respelt(text: &[u8], form: Form) -> Option<Cause> {
    let names = form.names();
    let right = names.as_bytes();
    let commas_for = |other: u8| {
        let swapped = |byte: &u8| if *byte == other { b',' } else { *byte };
        text.iter().map(swapped).eq(right.iter().copied())
    };
    let without =
        |left_out: &[u8]| text.iter().filter(|byte| !left_out.contains(byte)).eq(right.iter());
    let (digit, between) = (u8::is_ascii_digit, |byte: &u8| b",; \t".contains(byte));
    let values = text.iter().all(|byte| digit(byte) || between(byte)) && text.iter().any(digit);
    let causes = [
        (commas_for(b';'), Cause::NamesSemicolons {}),
        (commas_for(b'\t'), Cause::NamesTabs {}),
        (text.eq_ignore_ascii_case(right), Cause::NamesCapitals {}),
        (without(b" \t"), Cause::NamesSpaces {}),
        (without(b"\"'"), Cause::NamesQuotes {}),
        (values, Cause::NamesMissing { names }),
    ];
    causes.into_iter().find_map(|(holds, cause)| holds.then_some(cause))
}

/// The first name that is another, or how many there are.
fn differing(text: &[u8], form: Form) -> Fault {
    let names = form.names();
    let found: Vec<&[u8]> = text.split(|byte| *byte == b',').collect();
    let mut pairs = found.iter().zip(names.split(',')).enumerate();
    match pairs.find(|(_, (name, right))| **name != right.as_bytes()) {
        Some((place, (name, _))) if found.len() == form.values() => {
            (Some(Column(place)), Cause::NameWrong { name: shown(name), names })
        }
        _ => {
            let found = Many(found.len() as u32, "name");
            (None, Cause::NamesCount { found, many: form.many(), names })
        }
    }
}

/// A name as it can be printed, cut if it is long.
fn shown(name: &[u8]) -> String {
    let (head, more) = match name.get(..MOST_SHOWN) {
        Some(head) if name.len() > MOST_SHOWN => (head, "..."),
        _ => (name, ""),
    };
    format!("{}{more}", head.escape_ascii())
}
