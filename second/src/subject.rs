//! What is tested and timed: the library or the plain implementation, by one set of
//! functions.

use crate::question::{Input, Question};

type Read = fn(&[u8], &mut [u32], &mut [u32]) -> u64;
type Write = fn(&[u32], &mut [u8], &mut [u32]) -> u64;
type Count = fn(&[u32], &mut [u32]) -> u64;
type Locate = fn(&[u32], u32, &mut [u32], &mut [u32]) -> u64;
type Number = fn(&[u32], &[u32], u32, &mut [u32]) -> u64;
/// Lists, fewest and row: rows, two cue numbers, the lent page, work area or path list, given.
pub type Pair = fn(&[u32], u32, u32, &mut [u32], &mut [u32]) -> u64;

/// Quickest: rows, two cue numbers, the wait file, the lent work area, given.
type Quickest = fn(&[u32], u32, u32, &[u8], &mut [u64], &mut [u32]) -> u64;

/// The functions of an implementation, each in the shape of its C function.
#[derive(Clone, Copy)]
pub struct Subject {
    pub read: Read,
    pub read_desk: Read,
    pub write: Write,
    pub count: Count,
    pub locate: Locate,
    pub number: Number,
    pub list_out: Pair,
    pub list_in: Pair,
    pub fewest: Pair,
    pub row: Pair,
    pub quickest: Quickest,
}

impl Subject {
    fn list(&self, outward: bool) -> Pair {
        if outward {
            self.list_out
        } else {
            self.list_in
        }
    }

    /// Asks; nothing if the question is not one for this input.
    pub fn ask(&self, input: &Input, question: &Question, lent: &mut Lent) -> Option<u64> {
        let Lent { numbers, wide, bytes, given } = lent;
        Some(match (input, question) {
            (Input::File(file), Question::Read { .. }) => (self.read)(file, numbers, given),
            (Input::Desk(file), Question::Read { .. }) => (self.read_desk)(file, numbers, given),
            (Input::Rows(rows), question) => match question {
                Question::Read { .. } => return None,
                Question::Write { .. } => (self.write)(rows, bytes, given),
                Question::Count => (self.count)(rows, given),
                Question::Locate { n, .. } => (self.locate)(rows, *n, numbers, given),
                Question::Number { path, own } => (self.number)(rows, path, *own, given),
                Question::List { outward, v, n, .. } => {
                    (self.list(*outward))(rows, *v, *n, numbers, given)
                }
                Question::Fewest { s, t, .. } => (self.fewest)(rows, *s, *t, numbers, given),
                Question::Row { s, t, .. } => (self.row)(rows, *s, *t, numbers, given),
                Question::Quickest { s, t, waits, .. } => {
                    (self.quickest)(rows, *s, *t, waits, wide, given)
                }
            },
            _ => return None,
        })
    }
}

/// The memory that a question may write to.
pub struct Lent<'a> {
    pub numbers: &'a mut [u32],
    pub wide: &'a mut [u64],
    pub bytes: &'a mut [u8],
    pub given: &'a mut [u32],
}

/// The plain implementation.
pub fn plain() -> Subject {
    use crate::plain::{
        count, fewest, list_in, list_out, locate, number, quickest, read, read_desk, row, write,
    };
    Subject {
        read,
        read_desk,
        write,
        count,
        locate,
        number,
        list_out,
        list_in,
        fewest,
        row,
        quickest,
    }
}
