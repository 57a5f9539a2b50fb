//! What a failing case prints, so that it can be made again.

use std::fmt::{Debug, Write};

use super::checker::Failure;
use super::outcome::Outcome;
use crate::limits::COLUMNS;
use crate::question::Input;

/// Places of a difference that are printed.
const MOST: usize = 8;

/// The failure as text: the input, the question and both outcomes.
pub fn text(failure: &Failure) -> String {
    let mut text = String::new();
    match &failure.input {
        Input::File(file) => told(&mut text, file, ""),
        Input::Desk(file) => told(&mut text, file, ", read behind the desk's blocks"),
        Input::Rows(rows) => {
            let _ = writeln!(text, "{} numbers in rows:", rows.len());
            for row in rows.chunks(COLUMNS) {
                let _ = writeln!(text, "{}", listed(row));
            }
        }
    }
    let _ = writeln!(text, "question: {:?}", failure.call.question);
    let _ = writeln!(text, "length of given: {}", failure.call.given);
    let (expected, actual) = (&failure.expected, &failure.actual);
    let _ = writeln!(text, "expected: {}", head(expected));
    let _ = writeln!(text, "actual:   {}", head(actual));
    differences(&mut text, "number", &expected.numbers, &actual.numbers);
    differences(&mut text, "64-bit number", &expected.wide, &actual.wide);
    differences(&mut text, "byte", &expected.bytes, &actual.bytes);
    text
}

/// A file, and how it is read.
fn told(text: &mut String, file: &[u8], way: &str) {
    let _ = writeln!(text, "file of {} bytes{way}:\n{}", file.len(), file.escape_ascii());
}

fn listed(numbers: &[u32]) -> String {
    numbers.iter().map(u32::to_string).collect::<Vec<_>>().join(",")
}

fn head(outcome: &Outcome) -> String {
    let (number, place) = (outcome.returned >> 32, outcome.returned as u32);
    let given = listed(&outcome.given);
    match outcome.returned {
        0 => format!("answer; given {given}"),
        _ => format!("refusal {number}, {place}; given {given}"),
    }
}

/// The first places at which the lent output differs.
fn differences<T: PartialEq + Debug>(text: &mut String, what: &str, expected: &[T], actual: &[T]) {
    let pairs = expected.iter().zip(actual).enumerate();
    for (place, (expected, actual)) in pairs.filter(|(_, (e, a))| e != a).take(MOST) {
        let _ = writeln!(text, "{what} {place}: expected {expected:?}, actual {actual:?}");
    }
}
