//! One case: a file or rows with all the questions asked about it.

use super::outcome::{Call, Outcome};
use crate::limits::{Refusal, GIVEN, REFUSALS};
use crate::naive::ask::Show;
use crate::question::{Answer, Input, Question};
use crate::subject::Subject;

/// The first call of a case that came out differently.
pub struct Failure {
    pub input: Input,
    pub call: Call,
    pub expected: Outcome,
    pub actual: Outcome,
}

/// How many calls had an answer (0) or were refused (by number).
pub type Census = [u64; REFUSALS + 1];

/// How many broken shows the naive tool refused: by number, then by the kind of the row at the
/// place. The last are rows of no kind, and refusal 4, which has no row.
pub type Kinds = [[u64; 4]; 11];

/// Asks the questions of a case, counts the calls that came out differently and keeps the first.
pub struct Checker<'a> {
    pub subject: &'a Subject,
    pub census: Census,
    pub kinds: Kinds,
    /// How many shows that may be broken were asked about.
    pub turn: usize,
    pub differing: u64,
    pub failure: Option<Box<Failure>>,
}

impl<'a> Checker<'a> {
    pub fn new(subject: &'a Subject) -> Checker<'a> {
        let (census, kinds) = ([0; REFUSALS + 1], Kinds::default());
        Checker { subject, census, kinds, turn: 0, differing: 0, failure: None }
    }

    /// Compares a call with a result that is known. Gives what the call left; nothing if the
    /// question is switched off.
    pub fn compare(
        &mut self,
        input: &Input,
        call: Call,
        result: &Result<Answer, Refusal>,
    ) -> Option<Outcome> {
        let expected = Outcome::expected(&call, result);
        self.hold(input, call, expected)
    }

    /// Compares a call with the same call on another input, where it must leave the same.
    pub fn compare_with(&mut self, other: &Input, input: &Input, call: Call) -> Option<Outcome> {
        let expected = Outcome::actual(self.subject, other, &call)?;
        self.hold(input, call, expected)
    }

    /// Compares a call with the same call on another implementation, which must leave the same.
    pub fn compare_to(&mut self, other: &Subject, input: &Input, call: Call) -> Option<Outcome> {
        let expected = Outcome::actual(other, input, &call)?;
        self.hold(input, call, expected)
    }

    fn hold(&mut self, input: &Input, call: Call, expected: Outcome) -> Option<Outcome> {
        let actual = Outcome::actual(self.subject, input, &call)?;
        self.census[(expected.returned >> 32) as usize] += 1;
        if actual != expected {
            self.differing += 1;
            self.failure.get_or_insert_with(|| {
                let (input, actual) = (input.clone(), actual.clone());
                Box::new(Failure { input, call, expected, actual })
            });
        }
        Some(actual)
    }
}

/// A file or rows with what the naive tool makes of them.
pub struct Subjected<'a, 'b> {
    pub checker: &'b mut Checker<'a>,
    pub input: Input,
    pub known: Result<Show, Refusal>,
}

impl<'a, 'b> Subjected<'a, 'b> {
    pub fn new(checker: &'b mut Checker<'a>, input: Input) -> Subjected<'a, 'b> {
        let known = match &input {
            Input::File(file) => Show::of_file(file),
            Input::Desk(file) => Show::of_desk_file(file),
            Input::Rows(rows) => Show::of_rows(rows),
        };
        Subjected { checker, input, known }
    }

    /// Asks with this length of `given`.
    pub fn ask_given(&mut self, question: Question, given: usize) {
        let result = match &self.known {
            Ok(show) => show.answer(&question, given),
            Err(refusal) => Err(*refusal),
        };
        self.checker.compare(&self.input, Call { question, given }, &result);
    }

    /// Asks with the usual length of `given`.
    pub fn ask(&mut self, question: Question) {
        self.ask_given(question, GIVEN);
    }

    /// How long the lent output has to be; some length where the show is refused.
    pub fn room_needed(&self, question: &Question) -> usize {
        self.known.as_ref().map_or(20, |show| show.room_needed(question))
    }
}
