//! What a call leaves: the returned value and every lent number.

use crate::limits::Refusal;
use crate::question::{Answer, Input, Question};
use crate::subject::{Lent, Subject};

/// Numbers lent beyond each output, which no call may change.
const GUARD: usize = 4;

/// A question with the length of `given`.
#[derive(Clone, Debug)]
pub struct Call {
    pub question: Question,
    pub given: usize,
}

/// All that can be seen after a call. The lent memory is kept with its guard.
#[derive(Clone, Debug, PartialEq, Eq)]
pub struct Outcome {
    pub returned: u64,
    pub given: Vec<u32>,
    pub numbers: Vec<u32>,
    pub wide: Vec<u64>,
    pub bytes: Vec<u8>,
}

impl Outcome {
    /// Lent memory before a call, filled with a pattern.
    fn before(call: &Call) -> Outcome {
        let room = call.question.room();
        let [numbers, wide, bytes] = match call.question {
            Question::Write { .. } => [0, 0, room],
            Question::Quickest { .. } => [0, room, 0],
            _ => [room, 0, 0],
        };
        Outcome {
            returned: 0,
            given: pattern(call.given, 0xB1B1_0000),
            numbers: pattern(numbers, 0xA5A5_0000),
            wide: pattern_wide(wide),
            bytes: pattern_bytes(bytes),
        }
    }

    /// What a call should leave.
    pub fn expected(call: &Call, result: &Result<Answer, Refusal>) -> Outcome {
        let mut outcome = Outcome::before(call);
        match result {
            Err(refusal) => outcome.returned = refusal.returned(),
            Ok(answer) => {
                outcome.given[..answer.given.len()].copy_from_slice(&answer.given);
                outcome.numbers[..answer.numbers.len()].copy_from_slice(&answer.numbers);
                outcome.wide[..answer.wide.len()].copy_from_slice(&answer.wide);
                outcome.bytes[..answer.bytes.len()].copy_from_slice(&answer.bytes);
            }
        }
        outcome
    }

    /// What a call does leave; nothing if the question is not one for this input.
    pub fn actual(subject: &Subject, input: &Input, call: &Call) -> Option<Outcome> {
        let mut outcome = Outcome::before(call);
        let mut lent = Lent {
            numbers: lent(&mut outcome.numbers),
            wide: lent(&mut outcome.wide),
            bytes: lent(&mut outcome.bytes),
            given: lent(&mut outcome.given),
        };
        outcome.returned = subject.ask(input, &call.question, &mut lent)?;
        Some(outcome)
    }
}

fn lent<T>(memory: &mut [T]) -> &mut [T] {
    let length = memory.len() - GUARD;
    &mut memory[..length]
}

fn pattern(length: usize, begin: u32) -> Vec<u32> {
    (begin..).take(length + GUARD).collect()
}

/// Each number has something in both of its halves.
fn pattern_wide(length: usize) -> Vec<u64> {
    (0xC3C3_0000_D2D2_0000..).take(length + GUARD).collect()
}

fn pattern_bytes(length: usize) -> Vec<u8> {
    (0..length + GUARD).map(|place| 0x80 | place as u8).collect()
}
