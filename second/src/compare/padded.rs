//! Fixed cases: files with padded values.

use super::big::Case;
use super::checker::{Checker, Subjected};
use super::outcome::Call;
use crate::gen::prng::Prng;
use crate::gen::{edges, known, padding};
use crate::limits::{Refusal, BYTES, GIVEN};
use crate::naive::file::print;
use crate::question::{Answer, Input, Question};

/// Every fixed case of padding.
pub const CASES: &[Case] = &[
    ("padded ring", |checker| digits(checker, known::ring(), 5, 627, Ok([9, 3, 5]))),
    ("992 rows of five digits", |checker| {
        digits(checker, known::wide(992), 5, 65_505, Ok([992, 1, 255]))
    }),
    ("1,024 rows of four digits", |checker| {
        digits(checker, known::wide(1024), 4, 56_353, Ok([1024, 1, 255]))
    }),
    ("1,024 rows of five digits", |checker| {
        digits(checker, known::wide(1024), 5, 67_617, Err((1, 0)))
    }),
    ("128 blocks of four digits", |checker| {
        digits(checker, known::dense(), 4, 56_353, Ok([1024, 128, 8]))
    }),
    ("the longest file by padding", longest),
    ("too long by padding", too_long),
    ("too long but for its end", without_its_end),
    ("one value padded", near_values),
    ("one byte of a padded file changed", near_files),
];

/// Rows, blocks and cues that reading gives, or a refusal and its place.
type Read = Result<[u32; 3], (u32, usize)>;

fn file_of(rows: &[u32]) -> Vec<u8> {
    print(rows.as_chunks().0)
}

/// The file of a show, padded to so many digits.
fn digits(checker: &mut Checker, rows: Vec<u32>, digits: usize, length: usize, read: Read) {
    let file = padding::to_digits(&file_of(&rows), digits);
    assert_eq!(file.len(), length);
    reads(checker, &rows, file, read);
}

/// Reading a padded file of these rows comes out as is known.
fn reads(checker: &mut Checker, rows: &[u32], file: Vec<u8>, read: Read) {
    let result = match read {
        Ok(sizes) => Ok(Answer::with_numbers(&sizes, rows)),
        Err((number, place)) => Err(Refusal::new(number, place)),
    };
    let input = Input::File(file.clone());
    let call = Call { question: Question::Read { room: rows.len() }, given: GIVEN };
    checker.compare(&input, call, &result);
    Subjected::new(checker, input).ask_file(&mut Prng::new(1, 1));
}

/// Files that padding makes as long as a file may be.
fn longest(checker: &mut Checker) {
    let shows: [(Vec<u32>, Read); 4] = [
        (known::wide(1000), Ok([1000, 1, 255])),
        (known::wide(1024), Ok([1024, 1, 255])),
        (known::dense(), Ok([1024, 128, 8])),
        (known::wide(1025), Err((4, 0))),
    ];
    for (rows, read) in shows {
        let file = padding::to_length(&file_of(&rows), BYTES);
        assert_eq!(file.len(), BYTES);
        reads(checker, &rows, file, read);
    }
}

/// Files that padding makes a byte longer than a file may be.
fn too_long(checker: &mut Checker) {
    for rows in [known::wide(1000), known::wide(1024), known::dense(), known::wide(1025)] {
        let file = padding::to_length(&file_of(&rows), BYTES + 1);
        assert_eq!(file.len(), BYTES + 1);
        reads(checker, &rows, file, Err((1, 0)));
    }
}

/// The longest length, but the last line lacks its line feed.
fn without_its_end(checker: &mut Checker) {
    let rows = known::dense();
    let mut file = padding::to_length(&file_of(&rows), BYTES + 1);
    file.pop();
    reads(checker, &rows, file, Err((3, 1025)));
}

/// One value of some shows written otherwise, before and after padding the whole file.
fn near_values(checker: &mut Checker) {
    for rows in edges::bases() {
        let file = file_of(&rows);
        let chance = padding::by_chance(&mut Prng::new(1, 1), &file);
        for file in [padding::to_digits(&file, padding::DIGITS), chance, file] {
            edges::near_values(&file).into_iter().for_each(|file| read(checker, file));
        }
    }
}

/// Every small change of a padded file.
fn near_files(checker: &mut Checker) {
    let file = padding::to_digits(&file_of(&known::ring()), padding::DIGITS);
    edges::near_files(&file).into_iter().for_each(|file| read(checker, file));
}

fn read(checker: &mut Checker, file: Vec<u8>) {
    Subjected::new(checker, Input::File(file)).ask_once(100);
}
