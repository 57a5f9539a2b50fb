//! Show files of theatre lighting consoles: read, checked, written and asked, every answer proved.
//!
//! A show is stored folded, as at most 1,024 rows of eleven numbers, and can stand for 2,147,483,647
//! cues. Its rows lie in memory that the caller lends; nothing is allocated. Every question checks
//! the rows first, so any numbers may be asked about: what is no show is [`Refused`], and a refusal
//! changes nothing that was lent. `docs/FORMAT.md` of the library explains the format and each
//! refusal.
//!
//! ```
//! use show::{Rows, ROWS_LEN, WORK_LEN};
//!
//! let file = b"block,kind,label,a,b,c,d,e,f,g,h\n\
//!     0,0,0,3,0,0,0,0,0,0,0\n\
//!     0,1,1,1,2,0,0,0,0,0,0\n\
//!     0,1,1,2,3,0,0,0,0,0,0\n";
//! let mut room = [0; ROWS_LEN];
//! let rows = Rows::read(file, &mut room)?.rows;
//! assert_eq!(rows.count()?, 3);
//! assert_eq!(rows.linked_out(1)?.collect::<Vec<_>>(), [2]);
//! assert_eq!(rows.fewest(1, 3, &mut [0; WORK_LEN])?, Some(2));
//! assert_eq!(rows.fewest(3, 1, &mut [0; WORK_LEN])?, None);
//! # Ok::<(), show::Refused>(())
//! ```
//!
//! A file whose blocks use those that come with the desk is read by [`Rows::read_desk`], any other by
//! [`Rows::read`]. How long the follow-ons of each label wait stands in a wait file of the house;
//! [`Rows::quickest`] is asked under one.
//!
//! Every call may be made from any number of threads at once: the library has no state. No call was
//! seen to need more than 83 kB of stack; [`STACK_LEN`] is what the tests hold it to.
#![no_std]
#![warn(missing_docs)]

mod linked;
mod refused;

pub use linked::Linked;
pub use refused::{Place, Refused};
pub use show_sys::{
    DESK_BLOCKS, DESK_MAX_OWN_ROWS, DESK_ROWS, MAX_BLOCKS, MAX_CUES, MAX_FILE, MAX_FOLLOWED,
    MAX_JOINS, MAX_LABEL, MAX_OWN, MAX_ROWS, MAX_VALUE, MAX_WAIT, NO_CHAIN, PATH_LEN, ROWS_LEN,
    ROW_LEN, STACK_LEN, SUMMARY_LEN, WORK_LEN,
};

/// The version of this crate, which is that of the library's header too.
pub const VERSION: &str = env!("CARGO_PKG_VERSION");

/// The rows of a show, eleven numbers each, in memory that the caller lends.
///
/// Nothing is assumed of the numbers: each question checks them first, in 4 to 8 nanoseconds a row, and
/// refuses what is no show: [`Refused::BadRowCount`] to [`Refused::TooManyCues`], placed at rows. What
/// else a question refuses stands at its method.
#[derive(Clone, Copy, Debug, PartialEq, Eq)]
pub struct Rows<'a> {
    numbers: &'a [u32],
}

/// A show that was read from a file, whichever way.
#[derive(Clone, Copy, Debug, PartialEq, Eq)]
pub struct Loaded<'a> {
    /// The rows, at the beginning of the lent room.
    pub rows: Rows<'a>,
    /// How many blocks the show has, those of the desk counted where they were read.
    pub blocks: u32,
    /// How many cues the show stands for.
    pub cues: u32,
}

/// Where a cue is.
#[derive(Clone, Copy, Debug, PartialEq, Eq)]
pub struct Located<'p> {
    /// The uses that lead to its copy, each by its position in its block, from 1. Its length is
    /// the depth.
    pub path: &'p [u32],
    /// The block of which this is a copy, from 0.
    pub block: u32,
    /// Which of that block's own cues it is, from 1.
    pub own: u32,
}

/// Where a link of the unfolded show comes from: a link row, in a copy of its block.
#[derive(Clone, Copy, Debug, PartialEq, Eq)]
pub struct Origin<'p> {
    /// The row, from 1. In a file that [`Rows::read`] took in it is line row + 1; in one that
    /// [`Rows::read_desk`] took in, line row - 167, and a row up to [`DESK_ROWS`] is the desk's and stands in
    /// no line.
    pub row: u32,
    /// The uses that lead to the copy, each by its position in its block, from 1. Its length is
    /// the depth.
    pub path: &'p [u32],
}

/// A page of a list of cues.
#[derive(Clone, Copy, Debug, PartialEq, Eq)]
pub struct Page<'p> {
    /// The cues of this page, rising.
    pub cues: &'p [u32],
    /// Whether there are more behind them; where the page has no room, whether there are any above n.
    pub more: bool,
}

impl<'a> Rows<'a> {
    /// Numbers as rows, whatever they are.
    ///
    /// ```
    /// use show::{Place, Refused, Rows};
    ///
    /// assert_eq!(Rows::new(&[]).count(), Err(Refused::BadRowCount));
    /// // A block of no cues: the last block needs one.
    /// assert_eq!(Rows::new(&[0; 11]).count(), Err(Refused::BadBlock(Place::Row(1))));
    /// ```
    pub const fn new(numbers: &'a [u32]) -> Rows<'a> {
        Rows { numbers }
    }

    /// Reads a file to the beginning of `room`; [`ROWS_LEN`] numbers are enough for every file, fewer
    /// may be [`Refused::TooShort`]. Refusals are placed at lines of the file.
    ///
    /// Of a file on a disk, [`MAX_FILE`]` + 1` bytes are all that has to be read: with one byte over the
    /// limit it is refused. Cut at the limit, what is left may be a show.
    ///
    /// ```
    /// use show::{Place, Refused, Rows, ROWS_LEN};
    ///
    /// let names = "block,kind,label,a,b,c,d,e,f,g,h\n";
    /// let mut room = [0; ROWS_LEN];
    /// let file = format!("{names}0,0,0,00002,0,0,0,0,0,0,0\n0,1,256,1,2,0,0,0,0,0,0\n");
    /// let refused = Rows::read(file.as_bytes(), &mut room).unwrap_err();
    /// assert_eq!(refused, Refused::OutOfRange(Place::Line(3)));
    /// assert_eq!(refused.to_string(), "line 3: a value is out of its range, or an idle column is not 0");
    /// assert!(room.iter().all(|number| *number == 0));
    /// ```
    pub fn read(file: &[u8], room: &'a mut [u32]) -> Result<Loaded<'a>, Refused> {
        Rows::read_by(show_sys::show_read, file, room)
    }

    /// Reads a file to the beginning of `room`, with the rows of the blocks that come with the desk before
    /// its own.
    ///
    /// Those are blocks 0 to 15, [`DESK_ROWS`] rows. Block k has k + 1 own cues in a line:
    /// join 1 leads in to the first of them, each to the one behind it, and the last out to join 2, by
    /// links that all have label 1. The first row of the file opens block [`DESK_BLOCKS`], or it is
    /// [`Refused::CannotFollow`] at line 2. It has no more than [`DESK_MAX_OWN_ROWS`] rows: those of the
    /// desk are rows of the show, for its limits and in what is given.
    ///
    /// Refusals are placed at lines of the file, and `room` is as for [`Rows::read`]. The rows are rows
    /// like any other: [`Rows::write`] makes a whole file of them, which [`Rows::read`] reads to the same
    /// rows.
    ///
    /// ```
    /// use show::{Rows, DESK_BLOCKS, DESK_ROWS, MAX_FILE, ROWS_LEN, WORK_LEN};
    ///
    /// // Two cues, and the desk's block 3 between them: a run of four cues.
    /// let file = b"block,kind,label,a,b,c,d,e,f,g,h\n\
    ///     16,0,0,2,0,0,0,0,0,0,0\n\
    ///     16,2,3,1,2,0,0,0,0,0,0\n";
    /// let mut room = [0; ROWS_LEN];
    /// let show = Rows::read_desk(file, &mut room)?;
    /// assert_eq!((show.blocks as usize, show.cues), (DESK_BLOCKS + 1, 2 + 4));
    /// assert_eq!(show.rows.numbers().len(), 11 * (DESK_ROWS + 2));
    /// assert_eq!(show.rows.fewest(1, 2, &mut [0; WORK_LEN])?, Some(5));
    /// assert_eq!(show.rows.fewest(2, 1, &mut [0; WORK_LEN])?, None);
    ///
    /// let mut out = [0; MAX_FILE];
    /// let whole = show.rows.write(&mut out)?;
    /// assert_eq!(Rows::read(whole, &mut [0; ROWS_LEN])?, show);
    /// # Ok::<(), show::Refused>(())
    /// ```
    pub fn read_desk(file: &[u8], room: &'a mut [u32]) -> Result<Loaded<'a>, Refused> {
        Rows::read_by(show_sys::show_read_desk, file, room)
    }

    fn read_by(
        function: ReadFunction,
        file: &[u8],
        room: &'a mut [u32],
    ) -> Result<Loaded<'a>, Refused> {
        let (len, to) = (room.len(), room.as_mut_ptr());
        // SAFETY: each pointer goes with the length of its own slice, and a slice that is written
        // overlaps no other. So it is in every call below.
        let call = |given, given_len| unsafe {
            function(file.as_ptr(), file.len(), to, len, given, given_len)
        };
        let [many, blocks, cues] = ask(call, Place::Line)?;
        Ok(Loaded { rows: Rows::new(&room[..many as usize * ROW_LEN]), blocks, cues })
    }

    /// The numbers.
    pub const fn numbers(&self) -> &'a [u32] {
        self.numbers
    }

    /// Writes a file to the beginning of `out` and gives it; [`MAX_FILE`] bytes are enough for
    /// all rows, fewer may be [`Refused::TooShort`]. Values are written without leading zeros: what [`Rows::read`] took in from a file
    /// without any comes back byte for byte. What [`Rows::read_desk`] took in is written whole, with the rows
    /// of the desk.
    ///
    /// ```
    /// use show::{Rows, MAX_FILE};
    ///
    /// let mut out = [0; MAX_FILE];
    /// let file = Rows::new(&[0, 0, 0, 2, 0, 0, 0, 0, 0, 0, 0]).write(&mut out)?;
    /// assert_eq!(file, b"block,kind,label,a,b,c,d,e,f,g,h\n0,0,0,2,0,0,0,0,0,0,0\n");
    /// # Ok::<(), show::Refused>(())
    /// ```
    pub fn write<'o>(&self, out: &'o mut [u8]) -> Result<&'o mut [u8], Refused> {
        let (rows, rows_len) = self.lent();
        let (len, to) = (out.len(), out.as_mut_ptr());
        let call = |given, given_len| unsafe {
            show_sys::show_write(rows, rows_len, to, len, given, given_len)
        };
        let [bytes, ..] = ask(call, Place::Row)?;
        Ok(&mut out[..bytes as usize])
    }

    /// How many cues the show has.
    pub fn count(&self) -> Result<u32, Refused> {
        let (rows, rows_len) = self.lent();
        let call =
            |given, given_len| unsafe { show_sys::show_count(rows, rows_len, given, given_len) };
        let [cues, ..] = ask(call, Place::Row)?;
        Ok(cues)
    }

    /// Where cue `n` is. Its path goes to the beginning of `path`, which has at least
    /// [`PATH_LEN`] numbers, or it is [`Refused::TooShort`]. Also [`Refused::NoSuchCue`].
    ///
    /// ```
    /// use show::{Rows, PATH_LEN};
    ///
    /// // Block 0: one join and one own cue. Block 1 has one own cue and uses block 0 twice.
    /// let numbers = [
    ///     [0, 0, 1, 1, 0, 0, 0, 0, 0, 0, 0],
    ///     [1, 0, 0, 1, 0, 0, 0, 0, 0, 0, 0],
    ///     [1, 2, 0, 1, 0, 0, 0, 0, 0, 0, 0],
    ///     [1, 2, 0, 1, 0, 0, 0, 0, 0, 0, 0],
    /// ];
    /// let rows = Rows::new(numbers.as_flattened());
    /// let mut path = [0; PATH_LEN];
    /// let cue = rows.locate(3, &mut path)?;
    /// assert_eq!((cue.path, cue.block, cue.own), (&[2][..], 0, 1));
    /// assert_eq!(rows.number(cue.path, cue.own)?, 3);
    /// # Ok::<(), show::Refused>(())
    /// ```
    pub fn locate<'p>(&self, n: u32, path: &'p mut [u32]) -> Result<Located<'p>, Refused> {
        let (rows, rows_len) = self.lent();
        let (len, to) = (path.len(), path.as_mut_ptr());
        let call = |given, given_len| unsafe {
            show_sys::show_locate(rows, rows_len, n, to, len, given, given_len)
        };
        let [depth, block, own] = ask(call, Place::Row)?;
        Ok(Located { path: &path[..depth as usize], block, own })
    }

    /// The number of own cue `own` in the copy to which `path` leads, or [`Refused::NoSuchPath`]. The
    /// empty path is the show itself.
    pub fn number(&self, path: &[u32], own: u32) -> Result<u32, Refused> {
        let (rows, rows_len) = self.lent();
        let (from, len) = (path.as_ptr(), path.len());
        let call = |given, given_len| unsafe {
            show_sys::show_number(rows, rows_len, from, len, own, given, given_len)
        };
        let [n, ..] = ask(call, Place::Row)?;
        Ok(n)
    }

    /// The cues that follow on from cue `v` by one link, notes included, rising, each once; or
    /// [`Refused::NoSuchCue`].
    ///
    /// The iterator asks for a page at a time, so a list of millions needs no memory. A refusal is
    /// said here; the pages behind the first are asked of the same rows and cannot be refused.
    pub fn linked_out(&self, v: u32) -> Result<Linked<'a>, Refused> {
        Linked::new(*self, v, show_sys::show_list_out)
    }

    /// The cues from which cue `v` follows on by one link, in the same way.
    pub fn linked_in(&self, v: u32) -> Result<Linked<'a>, Refused> {
        Linked::new(*self, v, show_sys::show_list_in)
    }

    /// One page of [`linked_out`](Rows::linked_out): the cues above `n`, as many as `page` has room for.
    /// `n` is any number: 0 for the first page, then the last cue of the page before. No page is too
    /// short, but a loop over pages with no room does not come forward.
    pub fn list_out<'p>(&self, v: u32, n: u32, page: &'p mut [u32]) -> Result<Page<'p>, Refused> {
        self.list(show_sys::show_list_out, v, n, page)
    }

    /// One page of [`linked_in`](Rows::linked_in), in the same way.
    pub fn list_in<'p>(&self, v: u32, n: u32, page: &'p mut [u32]) -> Result<Page<'p>, Refused> {
        self.list(show_sys::show_list_in, v, n, page)
    }

    /// The fewest follow-ons from cue `s` to cue `t`, or nothing where no chain of links leads
    /// from the one to the other. `work` has at least [`WORK_LEN`] numbers, whatever they are, or it is
    /// [`Refused::TooShort`]. Also [`Refused::NoSuchCue`], of `s` or `t`.
    ///
    /// Links with label 255, above [`MAX_FOLLOWED`], are notes and are not followed: no chain has one, in
    /// the show or in a block. Lists and [`row`](Rows::row) show them.
    ///
    /// Afterwards they hold the fewest from each join to each join inside each block: those from
    /// join i to join j of block k at [`SUMMARY_LEN`]` * k + 8 * (i - 1) + (j - 1)`, [`NO_CHAIN`] for
    /// none and for a join that the block does not have.
    ///
    /// ```
    /// use show::{Rows, MAX_FOLLOWED, WORK_LEN};
    ///
    /// // Two own cues and a link between them, with this label.
    /// let linked = |label| [[0, 0, 0, 2, 0, 0, 0, 0, 0, 0, 0], [0, 1, label, 1, 2, 0, 0, 0, 0, 0, 0]];
    /// let (link, note) = (linked(MAX_FOLLOWED), linked(MAX_FOLLOWED + 1));
    /// let [link, note] = [&link, &note].map(|rows| Rows::new(rows.as_flattened()));
    /// assert_eq!(link.fewest(1, 2, &mut [0; WORK_LEN])?, Some(1));
    /// assert_eq!(note.fewest(1, 2, &mut [0; WORK_LEN])?, None);
    /// assert_eq!(note.linked_out(1)?.collect::<Vec<_>>(), [2]);
    /// # Ok::<(), show::Refused>(())
    /// ```
    pub fn fewest(&self, s: u32, t: u32, work: &mut [u32]) -> Result<Option<u32>, Refused> {
        let (rows, rows_len) = self.lent();
        let (len, to) = (work.len(), work.as_mut_ptr());
        let call = |given, given_len| unsafe {
            show_sys::show_fewest(rows, rows_len, s, t, to, len, given, given_len)
        };
        let [found, steps, _] = ask(call, Place::Row)?;
        Ok((found == 1).then_some(steps))
    }

    /// The quickest way from cue `s` to cue `t`, in tenths of a second, or nothing where no chain of links leads
    /// from the one to the other: the smallest sum over all chains of the waits that their links' labels have
    /// in a wait file. It is 0 where `s` is `t`, and nothing exactly where [`fewest`](Rows::fewest) is.
    ///
    /// `waits` is the file: the line `label,wait`, then a line for each label that waits, its label of 1 to
    /// [`MAX_FOLLOWED`] and its wait of 0 to [`MAX_WAIT`] tenths; labels rise from line to line. A label without a
    /// line waits 0. Links with label 255 are notes and are not followed. The file may have any length.
    ///
    /// `work` has at least [`WORK_LEN`] numbers, whatever they are, or it is [`Refused::TooShort`]. Afterwards
    /// the first [`WORK_LEN`] are 0, and the others as they were. Also [`Refused::NoSuchCue`], of `s` or `t`, and then, at
    /// lines of the wait file, [`Refused::BadWaitLine`], [`Refused::WaitOutOfRange`] and
    /// [`Refused::WaitsOutOfOrder`], also where `s` is `t`.
    ///
    /// ```
    /// use show::{Refused, Rows, WORK_LEN};
    ///
    /// // From cue 1 to cue 2 by a link with label 3, or over cue 3 by two with label 1.
    /// let numbers = [
    ///     [0, 0, 0, 3, 0, 0, 0, 0, 0, 0, 0],
    ///     [0, 1, 3, 1, 2, 0, 0, 0, 0, 0, 0],
    ///     [0, 1, 1, 1, 3, 0, 0, 0, 0, 0, 0],
    ///     [0, 1, 1, 3, 2, 0, 0, 0, 0, 0, 0],
    /// ];
    /// let (rows, mut work) = (Rows::new(numbers.as_flattened()), [0; WORK_LEN]);
    /// let waits = b"label,wait\n1,10\n3,50\n";
    /// assert_eq!(rows.quickest(1, 2, waits, &mut work)?, Some(20));
    /// assert_eq!(rows.quickest(1, 2, b"label,wait\n1,10\n", &mut work)?, Some(0));
    /// assert_eq!(rows.quickest(2, 1, waits, &mut work)?, None);
    /// assert_eq!(rows.quickest(2, 2, waits, &mut work)?, Some(0));
    ///
    /// let refused = rows.quickest(1, 2, b"label,wait\n3,50\n1,10\n", &mut work).unwrap_err();
    /// assert_eq!(refused, Refused::WaitsOutOfOrder(3));
    /// assert_eq!(refused.to_string(), "line 3: the labels of the wait file do not rise");
    /// # Ok::<(), show::Refused>(())
    /// ```
    pub fn quickest(
        &self,
        s: u32,
        t: u32,
        waits: &[u8],
        work: &mut [u64],
    ) -> Result<Option<u64>, Refused> {
        let (rows, rows_len) = self.lent();
        let (from, from_len) = (waits.as_ptr(), waits.len());
        let (len, to) = (work.len(), work.as_mut_ptr());
        let call = |given, given_len| unsafe {
            show_sys::show_quickest(rows, rows_len, s, t, from, from_len, to, len, given, given_len)
        };
        let [found, low, high] = ask(call, Place::Row)?;
        Ok((found == 1).then_some(u64::from(high) << 32 | u64::from(low)))
    }

    /// The row behind the follow-on from cue `s` to cue `t`: a link row that joins them, and the copy
    /// of its block in which it does. The path of that copy goes to the beginning of `path`, which has
    /// at least [`PATH_LEN`] numbers, or it is [`Refused::TooShort`]. Also [`Refused::NoSuchCue`], of
    /// `s` or `t`, and [`Refused::NoSuchLink`], so always where `s` is `t`.
    ///
    /// Each copy counts whose block sees both cues, as own cues or as joins, and each label. Of several
    /// rows the one with the shortest path is given; of two that are as long, the one with the smaller
    /// number at the first step where they differ; in one copy, the first row.
    ///
    /// A row is written once for all copies of its block: what is changed there changes in each.
    ///
    /// ```
    /// use show::{Refused, Rows, PATH_LEN};
    ///
    /// // Block 0 links its joins with label 7. The show has three own cues and uses block 0 twice.
    /// let mut numbers = [
    ///     [0, 0, 2, 0, 0, 0, 0, 0, 0, 0, 0],
    ///     [0, 1, 7, 1, 2, 0, 0, 0, 0, 0, 0],
    ///     [1, 0, 0, 3, 0, 0, 0, 0, 0, 0, 0],
    ///     [1, 1, 1, 3, 1, 0, 0, 0, 0, 0, 0],
    ///     [1, 2, 0, 1, 2, 0, 0, 0, 0, 0, 0],
    ///     [1, 2, 0, 2, 3, 0, 0, 0, 0, 0, 0],
    /// ];
    /// let rows = Rows::new(numbers.as_flattened());
    /// let mut path = [0; PATH_LEN];
    /// let here = rows.row(3, 1, &mut path)?;
    /// assert_eq!((here.row, here.path), (4, &[][..]));
    /// assert_eq!(rows.row(1, 3, &mut path), Err(Refused::NoSuchLink));
    /// let below = rows.row(2, 3, &mut path)?;
    /// assert_eq!((below.row, below.path), (2, &[2][..]));
    ///
    /// // Another label, in both copies of block 0.
    /// let label = &mut numbers[below.row as usize - 1][2];
    /// assert_eq!(*label, 7);
    /// *label = 8;
    /// # Ok::<(), show::Refused>(())
    /// ```
    pub fn row<'p>(&self, s: u32, t: u32, path: &'p mut [u32]) -> Result<Origin<'p>, Refused> {
        let (rows, rows_len) = self.lent();
        let (len, to) = (path.len(), path.as_mut_ptr());
        let call = |given, given_len| unsafe {
            show_sys::show_row(rows, rows_len, s, t, to, len, given, given_len)
        };
        let [row, depth, _] = ask(call, Place::Row)?;
        Ok(Origin { row, path: &path[..depth as usize] })
    }

    fn list<'p>(
        &self,
        function: ListFunction,
        v: u32,
        n: u32,
        page: &'p mut [u32],
    ) -> Result<Page<'p>, Refused> {
        let (rows, rows_len) = self.lent();
        let (len, to) = (page.len(), page.as_mut_ptr());
        let call =
            |given, given_len| unsafe { function(rows, rows_len, v, n, to, len, given, given_len) };
        let [written, more, _] = ask(call, Place::Row)?;
        Ok(Page { cues: &page[..written as usize], more: more == 1 })
    }

    /// The rows as the C functions take them.
    const fn lent(&self) -> (*const u32, usize) {
        (self.numbers.as_ptr(), self.numbers.len())
    }
}

type ReadFunction = unsafe extern "C" fn(*const u8, usize, *mut u32, usize, *mut u32, usize) -> u64;
type ListFunction =
    unsafe extern "C" fn(*const u32, usize, u32, u32, *mut u32, usize, *mut u32, usize) -> u64;

/// Runs a call that fills `given`; a refusal of rows is placed by `at`.
fn ask(
    call: impl FnOnce(*mut u32, usize) -> u64,
    at: fn(u32) -> Place,
) -> Result<[u32; show_sys::GIVEN_LEN], Refused> {
    let mut given = [0; show_sys::GIVEN_LEN];
    match call(given.as_mut_ptr(), given.len()) {
        0 => Ok(given),
        returned => Err(Refused::of(returned, at)),
    }
}
