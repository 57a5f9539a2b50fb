//! The cues linked to a cue, asked for page by page.

use crate::{ListFunction, Refused, Rows};

/// Cues of a page: 1 kB, and the check of the rows is shared by so many cues.
const PAGE_LEN: usize = 256;

/// The cues linked to a cue, rising: what [`Rows::linked_out`] and [`Rows::linked_in`] give.
#[derive(Clone, Debug)]
pub struct Linked<'a> {
    rows: Rows<'a>,
    v: u32,
    function: ListFunction,
    page: [u32; PAGE_LEN],
    /// The places of the page that are still to be given.
    next: usize,
    end: usize,
    more: bool,
}

impl<'a> Linked<'a> {
    pub(crate) fn new(
        rows: Rows<'a>,
        v: u32,
        function: ListFunction,
    ) -> Result<Linked<'a>, Refused> {
        let page = [0; PAGE_LEN];
        let mut linked = Linked { rows, v, function, page, next: 0, end: 0, more: true };
        linked.turn(0)?;
        Ok(linked)
    }

    /// Fills the page with the cues above n.
    fn turn(&mut self, n: u32) -> Result<(), Refused> {
        let page = self.rows.list(self.function, self.v, n, &mut self.page)?;
        (self.next, self.end, self.more) = (0, page.cues.len(), page.more);
        Ok(())
    }
}

impl Iterator for Linked<'_> {
    type Item = u32;

    fn next(&mut self) -> Option<u32> {
        if self.next == self.end {
            if !self.more {
                return None;
            }
            // There are more only behind a page that is full, so it has a last cue.
            let last = self.page[self.end - 1];
            self.turn(last).expect("what was answered of these rows is answered again");
        }
        let cue = self.page[..self.end].get(self.next).copied();
        self.next += usize::from(cue.is_some());
        cue
    }
}

impl core::iter::FusedIterator for Linked<'_> {}
