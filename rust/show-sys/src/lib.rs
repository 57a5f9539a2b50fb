//! The C functions of the show library, as `include/show.h` declares them. The crate `show` is the
//! safe way to them.
//!
//! Each function returns 0 for an answer, whose values then stand first in `given`, or a refusal:
//! its number in the upper 32 bits and its place in the lower 32. Lengths are in elements.
//!
//! # Safety
//!
//! Of every function: each pointer is valid for its length, for writing where it is mutable, and
//! the lists of one call do not overlap. With length 0 a pointer may be null. Nothing else is asked:
//! every function answers for all bytes, rows, numbers and lengths.
#![no_std]

/// Numbers of a row.
pub const ROW_LEN: usize = 11;
/// Rows of a show, at most.
pub const MAX_ROWS: usize = 1024;
/// Numbers of the rows of any show, at most.
pub const ROWS_LEN: usize = ROW_LEN * MAX_ROWS;
/// Blocks that come with the desk, 0 and on.
pub const DESK_BLOCKS: usize = 16;
/// Rows of the blocks that come with the desk.
pub const DESK_ROWS: usize = 168;
/// Rows of a file that is read behind those of the desk, at most.
pub const DESK_MAX_OWN_ROWS: usize = MAX_ROWS - DESK_ROWS;
/// Bytes of a file, at most.
pub const MAX_FILE: usize = 65_536;
/// Cues of a show, at most.
pub const MAX_CUES: u32 = 2_147_483_647;
/// A value in a file, at most.
pub const MAX_VALUE: u32 = 65_535;
/// Blocks of a show, at most.
pub const MAX_BLOCKS: usize = 128;
/// Own cues of a block, at most.
pub const MAX_OWN: u32 = 255;
/// Joins of a block, at most.
pub const MAX_JOINS: usize = 8;
/// Label of a link, at most; the least is 1.
pub const MAX_LABEL: u32 = 255;
/// Label of a link that chains follow, at most; with 255 it is a note.
pub const MAX_FOLLOWED: u32 = 254;
/// Wait of a label, at most, in tenths of a second.
pub const MAX_WAIT: u32 = 6_000;
/// Least length of a list lent for a path.
pub const PATH_LEN: usize = 127;
/// Least length of a work area, of 32-bit or of 64-bit numbers.
pub const WORK_LEN: usize = 16_384;
/// Numbers of a work area for each block.
pub const SUMMARY_LEN: usize = 64;
/// Least length of `given`.
pub const GIVEN_LEN: usize = 3;
/// Bytes of stack that are enough for each call, as far as it was tested.
pub const STACK_LEN: usize = 131_072;
/// In a work area: no chain leads from the one join to the other.
pub const NO_CHAIN: u32 = 4_294_967_295;

extern "C" {
    /// Reads a file to rows. given: rows, blocks, cues.
    pub fn show_read(
        file: *const u8,
        file_len: usize,
        rows: *mut u32,
        rows_len: usize,
        given: *mut u32,
        given_len: usize,
    ) -> u64;

    /// Reads a file to rows, behind the rows of the blocks that come with the desk. given: rows, blocks,
    /// cues.
    pub fn show_read_desk(
        file: *const u8,
        file_len: usize,
        rows: *mut u32,
        rows_len: usize,
        given: *mut u32,
        given_len: usize,
    ) -> u64;

    /// Writes rows as a file. given: its bytes.
    pub fn show_write(
        rows: *const u32,
        rows_len: usize,
        out: *mut u8,
        out_len: usize,
        given: *mut u32,
        given_len: usize,
    ) -> u64;

    /// How many cues the show has. given: cues.
    pub fn show_count(rows: *const u32, rows_len: usize, given: *mut u32, given_len: usize) -> u64;

    /// Where cue n is. given: depth, block, own cue.
    pub fn show_locate(
        rows: *const u32,
        rows_len: usize,
        n: u32,
        path: *mut u32,
        path_len: usize,
        given: *mut u32,
        given_len: usize,
    ) -> u64;

    /// The number of a path and an own cue. given: number.
    pub fn show_number(
        rows: *const u32,
        rows_len: usize,
        path: *const u32,
        path_len: usize,
        own: u32,
        given: *mut u32,
        given_len: usize,
    ) -> u64;

    /// The cues above n that follow on from cue v, by links or by notes. given: cues written, 1 if there are more.
    pub fn show_list_out(
        rows: *const u32,
        rows_len: usize,
        v: u32,
        n: u32,
        page: *mut u32,
        page_len: usize,
        given: *mut u32,
        given_len: usize,
    ) -> u64;

    /// The cues above n from which cue v follows on, in the same way. given: as above.
    pub fn show_list_in(
        rows: *const u32,
        rows_len: usize,
        v: u32,
        n: u32,
        page: *mut u32,
        page_len: usize,
        given: *mut u32,
        given_len: usize,
    ) -> u64;

    /// The fewest follow-ons from cue s to cue t; notes are not followed. given: 1 and their number,
    /// or 0 and 0.
    pub fn show_fewest(
        rows: *const u32,
        rows_len: usize,
        s: u32,
        t: u32,
        work: *mut u32,
        work_len: usize,
        given: *mut u32,
        given_len: usize,
    ) -> u64;

    /// The quickest way from cue s to cue t under a wait file; notes are not followed. given: 1 and the lower and
    /// upper 32 bits of the sum of its waits in tenths of a second, or 0, 0 and 0.
    pub fn show_quickest(
        rows: *const u32,
        rows_len: usize,
        s: u32,
        t: u32,
        waits: *const u8,
        waits_len: usize,
        work: *mut u64,
        work_len: usize,
        given: *mut u32,
        given_len: usize,
    ) -> u64;

    /// The link row that joins cue s to cue t, and the copy in which it stands. given: row, depth.
    pub fn show_row(
        rows: *const u32,
        rows_len: usize,
        s: u32,
        t: u32,
        path: *mut u32,
        path_len: usize,
        given: *mut u32,
        given_len: usize,
    ) -> u64;
}
