//! Every question, answered from the unfolding.

use std::cell::OnceCell;

use super::behind::origins;
use super::check::{check, cut, Block};
use super::desk;
use super::file::{parse, print};
use super::print::at_line;
use super::unfold::{unfold, Unfolding};
use super::waits::Waits;
use crate::limits::{Refusal, Row, COLUMNS, GIVEN, JOINS, NO_CHAIN, PATH, STRIDE, WORK};
use crate::question::{Answer, Question};

/// An accepted show. It is unfolded when a question first needs that.
pub struct Show {
    pub rows: Vec<Row>,
    pub blocks: Vec<Block>,
    unfolding: OnceCell<Unfolding>,
    work: OnceCell<Vec<u32>>,
}

impl Show {
    /// The show in lent rows, or the refusal that every question on them gives.
    pub fn of_rows(numbers: &[u32]) -> Result<Show, Refusal> {
        let blocks = check(numbers)?;
        let (unfolding, work) = (OnceCell::new(), OnceCell::new());
        Ok(Show { rows: cut(numbers)?, blocks, unfolding, work })
    }

    /// The show in a file, or the refusal that reading gives.
    pub fn of_file(file: &[u8]) -> Result<Show, Refusal> {
        Show::of_rows(&parse(file)?.concat()).map_err(at_line)
    }

    /// The show in a file that is read the second way, or the refusal that this gives.
    pub fn of_desk_file(file: &[u8]) -> Result<Show, Refusal> {
        Show::of_rows(&desk::read(file)?)
    }

    /// The number of cues.
    pub fn count(&self) -> u32 {
        self.blocks[self.blocks.len() - 1].total as u32
    }

    /// The unfolded show.
    pub fn unfolding(&self) -> &Unfolding {
        self.unfolding.get_or_init(|| unfold(&self.blocks, self.blocks.len() - 1))
    }

    /// The work area as the fewest question leaves it: each block's summary, then zeros.
    pub fn work(&self) -> &[u32] {
        self.work.get_or_init(|| {
            let mut work: Vec<u32> = Vec::new();
            for k in 0..self.blocks.len() {
                work.extend(summary(&self.blocks, k));
            }
            work.resize(WORK, 0);
            work
        })
    }

    /// How long the lent output has to be.
    pub fn room_needed(&self, question: &Question) -> usize {
        match question {
            Question::Read { .. } => self.rows.len() * COLUMNS,
            Question::Write { .. } => print(&self.rows).len(),
            Question::Locate { .. } | Question::Row { .. } => PATH,
            Question::Fewest { .. } | Question::Quickest { .. } => WORK,
            Question::Count | Question::Number { .. } | Question::List { .. } => 0,
        }
    }

    /// The answer, or the first of the refusals 11 to 17.
    pub fn answer(&self, question: &Question, given: usize) -> Result<Answer, Refusal> {
        if question.room() < self.room_needed(question) || given < GIVEN {
            return Err(Refusal::new(11, 0));
        }
        let cues = 1..=self.count();
        if question.cues().iter().any(|cue| !cues.contains(cue)) {
            return Err(Refusal::new(12, 0));
        }
        Ok(match *question {
            Question::Read { .. } => self.read(),
            Question::Write { .. } => self.write(),
            Question::Count => Answer::given(&[self.count()]),
            Question::Locate { n, .. } => self.locate(n),
            Question::Number { ref path, own } => {
                self.number(path, own).ok_or(Refusal::new(13, 0))?
            }
            Question::List { outward, v, n, room } => self.list(outward, v, n, room),
            Question::Fewest { s, t, .. } => self.fewest(s, t),
            Question::Row { s, t, .. } => self.row(s, t).ok_or(Refusal::new(14, 0))?,
            Question::Quickest { s, t, ref waits, .. } => {
                self.quickest(s, t, &Waits::of_file(waits)?)
            }
        })
    }

    fn read(&self) -> Answer {
        let sizes = [self.rows.len() as u32, self.blocks.len() as u32, self.count()];
        Answer::with_numbers(&sizes, &self.rows.concat())
    }

    fn write(&self) -> Answer {
        let bytes = print(&self.rows);
        Answer { bytes: bytes.clone(), ..Answer::given(&[bytes.len() as u32]) }
    }

    fn locate(&self, n: u32) -> Answer {
        let cue = &self.unfolding().cues[n as usize - 1];
        Answer::with_numbers(&[cue.path.len() as u32, cue.block, cue.own], &cue.path)
    }

    fn number(&self, path: &[u32], own: u32) -> Option<Answer> {
        let mut cues = self.unfolding().cues.iter();
        let place = cues.position(|cue| cue.path == path && cue.own == own)?;
        Some(Answer::given(&[place as u32 + 1]))
    }

    fn list(&self, outward: bool, v: u32, n: u32, room: usize) -> Answer {
        let linked = self.unfolding().linked(v, outward);
        let after: Vec<u32> = linked.iter().copied().filter(|cue| *cue > n).collect();
        let written = after.len().min(room);
        let more = after.len() > written;
        Answer::with_numbers(&[written as u32, more.into()], &after[..written])
    }

    fn fewest(&self, s: u32, t: u32) -> Answer {
        let steps = self.unfolding().steps_from(s)[t as usize];
        let given = [steps.is_some().into(), steps.unwrap_or(0)];
        Answer::with_numbers(&given, self.work())
    }

    /// The sum in two halves, and a work area of zeros.
    fn quickest(&self, s: u32, t: u32, waits: &Waits) -> Answer {
        let sum = self.unfolding().sums_from(s, waits)[t as usize];
        let tenths = sum.unwrap_or(0);
        let given = [sum.is_some().into(), tenths as u32, (tenths >> 32) as u32];
        Answer { wide: vec![0; WORK], ..Answer::given(&given) }
    }

    fn row(&self, s: u32, t: u32) -> Option<Answer> {
        let origins = origins(&self.blocks, s, t);
        let first = origins.first()?;
        Some(Answer::with_numbers(&[first.row, first.depth as u32], &first.path))
    }
}

/// The steps from join to join in the unfolding of block k alone.
fn summary(blocks: &[Block], k: usize) -> [u32; STRIDE] {
    let mut summary = [NO_CHAIN; STRIDE];
    let unfolding = unfold(blocks, k);
    let (total, joins) = (blocks[k].total as u32, blocks[k].joins as usize);
    for i in 0..joins {
        let steps = unfolding.steps_from(total + 1 + i as u32);
        for j in 0..joins {
            summary[JOINS * i + j] = steps[total as usize + 1 + j].unwrap_or(NO_CHAIN);
        }
    }
    summary
}
