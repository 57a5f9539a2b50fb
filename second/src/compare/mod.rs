//! Asks an implementation and the naive tool the same, and compares all that was lent.

pub mod behind;
pub mod big;
pub mod broken;
pub mod checker;
pub mod desk;
pub mod faults;
pub mod notes;
pub mod outcome;
pub mod padded;
pub mod questions;
pub mod random;
pub mod report;
pub mod round;
pub mod table;
pub mod waits;

/// Every fixed case.
pub fn fixed() -> impl Iterator<Item = &'static big::Case> {
    let cases = [big::CASES, padded::CASES, behind::CASES, notes::CASES, desk::CASES, waits::CASES];
    cases.into_iter().flatten()
}
