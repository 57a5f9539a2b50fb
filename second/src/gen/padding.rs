//! Files with zeros before their values, as older desks write them.

use super::prng::Prng;
use crate::limits::{BYTES, NAMES};

/// The most digits of a value.
pub const DIGITS: usize = 5;

/// Where the values stand: after the line of names, between commas and line feeds.
pub fn values(file: &[u8]) -> Vec<(usize, usize)> {
    let mut values = Vec::new();
    let mut begin = NAMES.len();
    for (place, byte) in file.iter().enumerate().skip(begin) {
        if *byte == b',' || *byte == b'\n' {
            values.push((begin, place));
            begin = place + 1;
        }
    }
    values
}

/// Zeros before every value: how many, is told for a number of digits.
fn with_zeros(file: &[u8], mut zeros: impl FnMut(usize) -> usize) -> Vec<u8> {
    let (mut padded, mut done) = (Vec::new(), 0);
    for (begin, end) in values(file) {
        padded.extend(&file[done..begin]);
        padded.resize(padded.len() + zeros(end - begin), b'0');
        done = begin;
    }
    padded.extend(&file[done..]);
    padded
}

/// How many zeros a value of so many digits may get.
fn most_zeros(digits: usize) -> usize {
    DIGITS.saturating_sub(digits)
}

/// Every value with at least this many digits.
pub fn to_digits(file: &[u8], digits: usize) -> Vec<u8> {
    with_zeros(file, |has| digits.saturating_sub(has))
}

/// Every value with a random number of zeros, up to five digits.
pub fn by_chance(prng: &mut Prng, file: &[u8]) -> Vec<u8> {
    with_zeros(file, |has| prng.below(most_zeros(has) + 1))
}

/// One value in twelve with zeros, up to five digits.
fn here_and_there(prng: &mut Prng, file: &[u8]) -> Vec<u8> {
    with_zeros(file, |has| if prng.one_in(12) { prng.below(most_zeros(has) + 1) } else { 0 })
}

/// Zeros from the first value on until the file has this many bytes, or five digits each.
pub fn to_length(file: &[u8], length: usize) -> Vec<u8> {
    let mut missing = length.saturating_sub(file.len());
    with_zeros(file, |has| {
        let zeros = missing.min(most_zeros(has));
        missing -= zeros;
        zeros
    })
}

/// Padded in some way. A file of many rows may get the longest length, or a byte more.
pub fn some_way(prng: &mut Prng, file: &[u8]) -> Vec<u8> {
    match prng.below(5) {
        0 => to_digits(file, DIGITS),
        1 => to_digits(file, 2 + prng.below(DIGITS - 2)),
        2 => by_chance(prng, file),
        3 => here_and_there(prng, file),
        _ => to_length(file, BYTES + prng.below(2)),
    }
}

#[cfg(test)]
mod tests {
    use super::*;
    use crate::gen::known;
    use crate::naive::file::{parse, print};

    #[test]
    fn padding_keeps_the_rows() {
        let (rows, prng) = (known::dense(), &mut Prng::new(3, 0));
        let file = print(rows.as_chunks().0);
        let four = to_digits(&file, 4);
        assert_eq!(four.len(), 33 + 1024 * 11 * 5);
        for padded in [four, by_chance(prng, &file), to_length(&file, BYTES)] {
            assert_eq!(parse(&padded).map(|rows| rows.concat()), Ok(rows.clone()));
        }
    }

    #[test]
    fn lengths_of_padded_files() {
        let file = print(known::dense().as_chunks().0);
        assert_eq!(to_digits(&file, DIGITS).len(), 33 + 1024 * 11 * 6);
        for length in [file.len(), file.len() + 1, BYTES, BYTES + 1] {
            assert_eq!(to_length(&file, length).len(), length);
        }
        assert_eq!(to_length(&file, 100_000), to_digits(&file, DIGITS));
    }
}
