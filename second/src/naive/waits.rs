//! The wait file: how long the follow-ons of each label wait.

use std::collections::BTreeMap;

use super::file::values_of;
use crate::limits::{Refusal, FOLLOWED, WAIT, WAIT_NAMES};

/// The waits of the labels that have a line, in tenths of a second. A label without a line waits 0.
#[derive(Clone, Debug, Default, PartialEq, Eq)]
pub struct Waits {
    lined: BTreeMap<u32, u64>,
}

impl Waits {
    /// The waits of a file, or refusal 15, 16 or 17. Each looks at every line before the next does.
    pub fn of_file(file: &[u8]) -> Result<Waits, Refusal> {
        well_formed(file)?;
        in_range(file)?;
        rising(file)?;
        let lines = lines(file).filter_map(|(_, line)| line);
        Ok(Waits { lined: lines.map(|[label, wait]| (label, wait.into())).collect() })
    }

    /// How long a follow-on of this label waits.
    pub fn of(&self, label: u32) -> u64 {
        self.lined.get(&label).copied().unwrap_or(0)
    }
}

/// The lines behind that of the names with their numbers: the label and the wait, or nothing where a
/// line is not two values.
fn lines(file: &[u8]) -> impl Iterator<Item = (u64, Option<[u32; 2]>)> + '_ {
    let lines = file.split_inclusive(|byte| *byte == b'\n');
    (1..).zip(lines).skip(1).map(|(number, line)| (number, values_of(line)))
}

/// Refusal 15: the first line is not the names, or another is not two values.
fn well_formed(file: &[u8]) -> Result<(), Refusal> {
    if file.split_inclusive(|byte| *byte == b'\n').next() != Some(WAIT_NAMES) {
        return Err(Refusal::at_line(15, 1));
    }
    match lines(file).find(|(_, line)| line.is_none()) {
        Some((number, _)) => Err(Refusal::at_line(15, number)),
        None => Ok(()),
    }
}

/// Refusal 16: a label is not 1 to 254, or a wait is over 6,000.
fn in_range(file: &[u8]) -> Result<(), Refusal> {
    for (number, line) in lines(file) {
        if line.is_some_and(|[label, wait]| !(1..=FOLLOWED).contains(&label) || wait > WAIT) {
            return Err(Refusal::at_line(16, number));
        }
    }
    Ok(())
}

/// Refusal 17: a label is not above that of the line before.
fn rising(file: &[u8]) -> Result<(), Refusal> {
    let labels = || lines(file).filter_map(|(number, line)| Some((number, line?[0])));
    for ((_, before), (number, label)) in labels().zip(labels().skip(1)) {
        if label <= before {
            return Err(Refusal::at_line(17, number));
        }
    }
    Ok(())
}
