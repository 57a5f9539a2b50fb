//! A question as data: what is asked, and how much room is lent for the answer.

/// A file that is read as it is, a file that is read behind the desk's blocks, or rows.
#[derive(Clone, Debug)]
pub enum Input {
    File(Vec<u8>),
    Desk(Vec<u8>),
    Rows(Vec<u32>),
}

/// One question on a file (`Read`, the way that the input says) or on lent rows (all others).
/// `room` is the length of the lent output.
#[derive(Clone, Debug, PartialEq, Eq)]
pub enum Question {
    Read { room: usize },
    Write { room: usize },
    Count,
    Locate { n: u32, room: usize },
    Number { path: Vec<u32>, own: u32 },
    List { outward: bool, v: u32, n: u32, room: usize },
    Fewest { s: u32, t: u32, room: usize },
    Row { s: u32, t: u32, room: usize },
    Quickest { s: u32, t: u32, waits: Vec<u8>, room: usize },
}

impl Question {
    /// Length of the lent output; 0 where the question has none.
    pub fn room(&self) -> usize {
        match *self {
            Question::Read { room }
            | Question::Write { room }
            | Question::Locate { room, .. }
            | Question::List { room, .. }
            | Question::Fewest { room, .. }
            | Question::Row { room, .. }
            | Question::Quickest { room, .. } => room,
            Question::Count | Question::Number { .. } => 0,
        }
    }

    /// The same question with other room for its answer.
    pub fn with_room(mut self, length: usize) -> Question {
        match &mut self {
            Question::Read { room }
            | Question::Write { room }
            | Question::Locate { room, .. }
            | Question::List { room, .. }
            | Question::Fewest { room, .. }
            | Question::Row { room, .. }
            | Question::Quickest { room, .. } => *room = length,
            Question::Count | Question::Number { .. } => {}
        }
        self
    }

    /// The cue numbers that have to be numbers of the show, in the order they are checked.
    pub fn cues(&self) -> Vec<u32> {
        match *self {
            Question::Locate { n, .. } => vec![n],
            Question::List { v, .. } => vec![v],
            Question::Fewest { s, t, .. }
            | Question::Row { s, t, .. }
            | Question::Quickest { s, t, .. } => vec![s, t],
            _ => Vec::new(),
        }
    }
}

/// What an answer leaves behind: the first numbers of `given`, and the first numbers, of 32 or of
/// 64 bits, or bytes of the lent output.
#[derive(Clone, Debug, Default, PartialEq, Eq)]
pub struct Answer {
    pub given: Vec<u32>,
    pub numbers: Vec<u32>,
    pub wide: Vec<u64>,
    pub bytes: Vec<u8>,
}

impl Answer {
    /// An answer that writes only to `given`.
    pub fn given(given: &[u32]) -> Answer {
        Answer { given: given.to_vec(), ..Answer::default() }
    }

    /// An answer that also writes numbers to the lent output.
    pub fn with_numbers(given: &[u32], numbers: &[u32]) -> Answer {
        Answer { numbers: numbers.to_vec(), ..Answer::given(given) }
    }
}
