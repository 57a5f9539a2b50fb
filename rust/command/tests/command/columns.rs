//! The column that is named is the one that is wrong: with a value there that its sentence allows, the
//! explanation goes away, and with one that it does not allow, it stays.

use std::collections::BTreeMap;

use show_command::explain::{Cause, Column, Explained};
use show_command::way::Way;

use crate::common::NAMES;
use crate::{explained, files};

/// What a sentence says of the values that its column may have, read out of its words.
#[derive(Default)]
struct Said {
    allowed: Vec<u32>,
    others: Vec<u32>,
}

/// A number at the beginning of a word, without the commas of its thousands.
fn number(word: &str) -> Option<u32> {
    let word = word.trim_end_matches([',', ';', ':']);
    word.replace(',', "").parse().ok()
}

/// Reads "N to M" and "must be N".
fn said(sentence: &str) -> Said {
    let words: Vec<&str> = sentence.split(' ').collect();
    let mut said = Said::default();
    for three in words.windows(3) {
        let range = match (number(three[0]), three[1], number(three[2])) {
            (Some(low), "to", Some(high)) => (low, high),
            (None, "be", Some(value)) if three[0] == "must" => (value, value),
            _ => continue,
        };
        said.allowed = vec![range.0, range.1];
        said.others = range.0.checked_sub(1).into_iter().chain([range.1 + 1]).collect();
    }
    said
}

/// The values that a sentence allows, at the ends of their range, and those next to them.
pub fn said_of(sentence: &str) -> (Vec<u32>, Vec<u32>) {
    let Said { allowed, others } = said(sentence);
    (allowed, others)
}

/// The bytes of a value of the file.
pub fn value(file: &[u8], line: u32, column: Column) -> std::ops::Range<usize> {
    let lines = file.split_inclusive(|byte| *byte == b'\n');
    let begin: usize = lines.clone().take(line as usize - 1).map(<[u8]>::len).sum();
    let text = lines.into_iter().nth(line as usize - 1).expect("there is such a line");
    let text = text.strip_suffix(b"\n").unwrap_or(text);
    let mut values = text.split(|byte| *byte == b',');
    let before: usize = values.by_ref().take(column.0).map(|value| value.len() + 1).sum();
    let length = values.next().expect("there is such a column").len();
    begin + before..begin + before + length
}

/// A refused file, with what is said of it.
struct Broken<'a> {
    way: Way,
    file: &'a [u8],
    line: u32,
    column: Column,
    found: Explained,
}

impl Broken<'_> {
    /// What is said with another text in the named column.
    fn with(&self, column: Column, text: &str) -> Option<Explained> {
        let mut file = self.file.to_vec();
        file.splice(value(self.file, self.line, column), text.bytes());
        explained::of(self.way, &file)
    }

    /// Whether this column is refused by the same number then. A kind that is known may still be
    /// wrong at its place, and that is another cause.
    fn same(&self, text: &str) -> bool {
        let place = |found: &Explained| (found.number, found.line, found.column);
        let kind = |found: &Explained| matches!(found.cause, Cause::Kind { .. });
        self.with(self.column, text).is_some_and(|found| {
            place(&found) == place(&self.found) && (kind(&found) || !kind(&self.found))
        })
    }

    /// Whether this column is named then.
    fn stays(&self, text: &str) -> bool {
        self.with(self.column, text)
            .is_some_and(|found| (found.line, found.column) == (Some(self.line), Some(self.column)))
    }

    /// The number in a column, in this line or another.
    fn number(&self, line: u32, column: Column) -> u32 {
        let text = &self.file[value(self.file, line, column)];
        std::str::from_utf8(text).expect("digits").parse().expect("a number")
    }

    /// Looks at what the sentence says; whether it said something that can be tried.
    fn hold(&self) -> bool {
        let Said { allowed, others } = said(&self.found.cause.to_string());
        let tried = !allowed.is_empty();
        assert!(allowed.iter().all(|value| !self.same(&value.to_string())), "{self}");
        // Joins that change let other rows name other cues, so more than this column may change.
        if self.found.number < 9 {
            assert!(others.iter().all(|value| self.stays(&value.to_string())), "{self}");
        }
        tried || self.hold_by_cause()
    }

    /// Sentences that have no range.
    fn hold_by_cause(&self) -> bool {
        match self.found.cause {
            Cause::NameWrong { .. } => {
                let names: Vec<&str> = NAMES.trim_end().split(',').collect();
                assert!(!self.same(names[self.column.0]), "{self}");
            }
            _ if self.found.number == 3 => {
                assert!(!self.same("0") && !self.same("65535") && self.stays("x"), "{self}");
            }
            Cause::LinkBehindUse {} => assert!(!self.same("2") && !self.same("0"), "{self}"),
            Cause::UseInFirst {} => {
                assert!(!self.same("1") && !self.same("0"), "{self}");
                let label = |text| self.with(Column(2), text);
                assert!(["0", "1", "65535"]
                    .iter()
                    .all(|text| label(text) == Some(self.found.clone())));
            }
            Cause::NoCues { .. } => {
                assert!(["0", "1", "255", "263"].iter().all(|text| self.same(text)), "{self}");
            }
            Cause::LinkTwice { cue } => self.hold_twice(cue, Column(3)),
            Cause::UseTwice { cue, first } => self.hold_twice(cue, first),
            Cause::LinkFalls { value, before } | Cause::UseFalls { value, before } => {
                assert_eq!(self.number(self.line, self.column), value, "{self}");
                assert_eq!(self.number(self.line - 1, self.column), before, "{self}");
                assert!(value < before && !self.same(&before.to_string()), "{self}");
            }
            _ => return false,
        }
        true
    }

    /// A cue stands in two columns; with another in the second, it does not.
    fn hold_twice(&self, cue: u32, first: Column) {
        assert_eq!(self.number(self.line, first), cue, "{self}");
        assert_eq!(self.number(self.line, self.column), cue, "{self}");
        let named: Vec<u32> = (3..11).map(|place| self.number(self.line, Column(place))).collect();
        let other = (1..).find(|cue| !named.contains(cue)).expect("a row names eight cues at most");
        assert!(first < self.column && !self.same(&other.to_string()), "{self}");
    }
}

impl std::fmt::Display for Broken<'_> {
    fn fmt(&self, f: &mut std::fmt::Formatter) -> std::fmt::Result {
        write!(f, "{}\n{}", self.found, String::from_utf8_lossy(self.file))
    }
}

/// Causes that name a column.
const WITH_COLUMN: usize = 43;

#[test]
fn another_value_in_the_named_column_helps() {
    let mut seen: BTreeMap<&str, u32> = BTreeMap::new();
    files::each(|way, file| {
        let Some(found) = explained::of(way, file) else { return };
        let (Some(line), Some(column)) = (found.line, found.column) else { return };
        let name = found.cause.name();
        let times = seen.entry(name).or_default();
        *times += 1;
        let broken = Broken { way, file, line, column, found };
        // A longer value must not make the file too long. A value that is no number comes up in
        // thousands of files, so not all of those are tried.
        if file.len() + 5 <= show::MAX_FILE && *times < 2000 {
            assert!(broken.hold(), "nothing can be tried: {broken}");
        }
    });
    assert_eq!(seen.len(), WITH_COLUMN, "{seen:?}");
}
