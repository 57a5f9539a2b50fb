//! The C functions of the library, each behind a function that takes slices. The returned
//! number and `given` are passed on as they are.
#![allow(unsafe_code)]

use crate::subject::Subject;

/// The shape of both ways of reading.
type Read = unsafe extern "C" fn(*const u8, usize, *mut u32, usize, *mut u32, usize) -> u64;
/// The shape of the questions on two numbers: lists, fewest and row.
type Pair =
    unsafe extern "C" fn(*const u32, usize, u32, u32, *mut u32, usize, *mut u32, usize) -> u64;

// Safety of every call here: each pointer goes with the length of its own live slice,
// and no two of the slices that are written overlap.

fn read_by(function: Read, file: &[u8], rows: &mut [u32], given: &mut [u32]) -> u64 {
    let (file, file_len) = (file.as_ptr(), file.len());
    let (rows, rows_len) = (rows.as_mut_ptr(), rows.len());
    unsafe { function(file, file_len, rows, rows_len, given.as_mut_ptr(), given.len()) }
}

pub fn read(file: &[u8], rows: &mut [u32], given: &mut [u32]) -> u64 {
    read_by(show_sys::show_read, file, rows, given)
}

pub fn read_desk(file: &[u8], rows: &mut [u32], given: &mut [u32]) -> u64 {
    read_by(show_sys::show_read_desk, file, rows, given)
}

pub fn write(rows: &[u32], out: &mut [u8], given: &mut [u32]) -> u64 {
    let (rows, rows_len) = (rows.as_ptr(), rows.len());
    let (out, out_len) = (out.as_mut_ptr(), out.len());
    unsafe { show_sys::show_write(rows, rows_len, out, out_len, given.as_mut_ptr(), given.len()) }
}

pub fn count(rows: &[u32], given: &mut [u32]) -> u64 {
    unsafe { show_sys::show_count(rows.as_ptr(), rows.len(), given.as_mut_ptr(), given.len()) }
}

pub fn locate(rows: &[u32], n: u32, path: &mut [u32], given: &mut [u32]) -> u64 {
    let (rows, rows_len) = (rows.as_ptr(), rows.len());
    let (path, path_len) = (path.as_mut_ptr(), path.len());
    unsafe {
        show_sys::show_locate(rows, rows_len, n, path, path_len, given.as_mut_ptr(), given.len())
    }
}

pub fn number(rows: &[u32], path: &[u32], own: u32, given: &mut [u32]) -> u64 {
    let (rows, rows_len) = (rows.as_ptr(), rows.len());
    let (path, path_len) = (path.as_ptr(), path.len());
    unsafe {
        show_sys::show_number(rows, rows_len, path, path_len, own, given.as_mut_ptr(), given.len())
    }
}

fn pair(
    function: Pair,
    rows: &[u32],
    (one, other): (u32, u32),
    lent: &mut [u32],
    given: &mut [u32],
) -> u64 {
    let (rows, rows_len) = (rows.as_ptr(), rows.len());
    let (lent, lent_len) = (lent.as_mut_ptr(), lent.len());
    let (given, given_len) = (given.as_mut_ptr(), given.len());
    unsafe { function(rows, rows_len, one, other, lent, lent_len, given, given_len) }
}

pub fn list_out(rows: &[u32], v: u32, n: u32, page: &mut [u32], given: &mut [u32]) -> u64 {
    pair(show_sys::show_list_out, rows, (v, n), page, given)
}

pub fn list_in(rows: &[u32], v: u32, n: u32, page: &mut [u32], given: &mut [u32]) -> u64 {
    pair(show_sys::show_list_in, rows, (v, n), page, given)
}

pub fn fewest(rows: &[u32], s: u32, t: u32, work: &mut [u32], given: &mut [u32]) -> u64 {
    pair(show_sys::show_fewest, rows, (s, t), work, given)
}

pub fn row(rows: &[u32], s: u32, t: u32, path: &mut [u32], given: &mut [u32]) -> u64 {
    pair(show_sys::show_row, rows, (s, t), path, given)
}

pub fn quickest(
    rows: &[u32],
    s: u32,
    t: u32,
    waits: &[u8],
    work: &mut [u64],
    given: &mut [u32],
) -> u64 {
    let (rows, rows_len) = (rows.as_ptr(), rows.len());
    let (waits, waits_len) = (waits.as_ptr(), waits.len());
    let (work, work_len) = (work.as_mut_ptr(), work.len());
    let (given, given_len) = (given.as_mut_ptr(), given.len());
    unsafe {
        show_sys::show_quickest(
            rows, rows_len, s, t, waits, waits_len, work, work_len, given, given_len,
        )
    }
}

/// The library's functions.
pub fn subject() -> Subject {
    Subject {
        read,
        read_desk,
        write,
        count,
        locate,
        number,
        list_out,
        list_in,
        fewest,
        row,
        quickest,
    }
}
