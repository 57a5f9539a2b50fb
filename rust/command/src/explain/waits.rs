//! Refusals 15 to 17: the lines of a wait file.

use show::{MAX_FOLLOWED, MAX_WAIT};

use super::{text, Cause, Column, Explained, Fault, Form};

/// The number of a refusal of the text of a wait file.
const MALFORMED: u32 = 15;

/// A line of a wait file: a label and its wait.
type Line = [u32; 2];

const LABEL: Column = Column(0);
const WAIT: Column = Column(1);

/// What is wrong first in a wait file: in its text, in the range of a value, in the order of its labels.
pub fn found(file: &[u8]) -> Option<Explained> {
    let lines = match text::lines::<2>(file, Form::Waits) {
        Ok(lines) => lines,
        Err(explained) => return Some(Explained { number: MALFORMED, ..in_waits(explained) }),
    };
    let first = |fault: &dyn Fn(usize) -> Option<Fault>| {
        (0..lines.len()).find_map(|place| Some(in_waits(Explained::at(place + 2, fault(place)?))))
    };
    first(&|place| outside(lines[place]))
        .or_else(|| first(&|place| not_above(*lines.get(place.checked_sub(1)?)?, lines[place])))
}

fn in_waits(explained: Explained) -> Explained {
    Explained { form: Form::Waits, ..explained }
}

/// Check 16: a value out of its range.
fn outside([label, wait]: Line) -> Option<Fault> {
    match label {
        _ if !(1..=MAX_FOLLOWED).contains(&label) => {
            Some((Some(LABEL), Cause::WaitLabel { label }))
        }
        _ if wait > MAX_WAIT => Some((Some(WAIT), Cause::WaitOver { wait })),
        _ => None,
    }
}

/// Check 17: a label that is not above the one before.
fn not_above([before, _]: Line, [label, _]: Line) -> Option<Fault> {
    let cause = match label {
        _ if label > before => return None,
        _ if label == before => Cause::SameLabel { label },
        _ => Cause::LabelFalls { label, before },
    };
    Some((Some(LABEL), cause))
}
