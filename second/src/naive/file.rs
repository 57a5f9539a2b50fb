//! The show file: bytes to rows and back.

use crate::limits::{Refusal, Row, BYTES, NAMES};

/// The rows of a file, or refusal 1, 2 or 3. How many rows there are is not looked at.
pub fn parse(file: &[u8]) -> Result<Vec<Row>, Refusal> {
    if file.len() > BYTES {
        return Err(Refusal::new(1, 0));
    }
    let mut lines = file.split_inclusive(|byte| *byte == b'\n');
    if lines.next() != Some(NAMES) {
        return Err(Refusal::new(2, 1));
    }
    lines.zip(2..).map(|(line, number)| values_of(line).ok_or(Refusal::new(3, number))).collect()
}

/// The values of a line with its line feed, if there are so many.
pub fn values_of<const N: usize>(line: &[u8]) -> Option<[u32; N]> {
    let text = std::str::from_utf8(line).ok()?.strip_suffix('\n')?;
    let values: Option<Vec<u32>> = text.split(',').map(value_of).collect();
    values?.try_into().ok()
}

/// A value is one to five digits, leading zeros allowed, and at most 65,535.
fn value_of(text: &str) -> Option<u32> {
    let digits = text.bytes().all(|byte| byte.is_ascii_digit());
    if !digits || text.is_empty() || text.len() > 5 {
        return None;
    }
    text.parse().ok().filter(|value| *value <= 65_535)
}

/// Rows as a file, without padding.
pub fn print(rows: &[Row]) -> Vec<u8> {
    let mut file = NAMES.to_vec();
    for row in rows {
        let values: Vec<String> = row.iter().map(u32::to_string).collect();
        file.extend(values.join(",").bytes());
        file.push(b'\n');
    }
    file
}
