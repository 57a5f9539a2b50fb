//! Wait files: lawful ones, and files that are broken in every way.

use super::build::Build;
use super::prng::Prng;
use crate::limits::{Refusal, FOLLOWED, WAIT, WAIT_NAMES};

/// A line as it is written, without its line feed.
type Line = String;

/// Waits at the ends of their range, and such as sums are easily told apart by.
const WAITS: [u32; 10] = [0, 0, 1, 1, 2, 10, 25, 4096, WAIT - 1, WAIT];

/// Lines that are no two values.
pub const MALFORMED: [&str; 40] = [
    "",
    "\r",
    ",",
    "1",
    "1,",
    ",1",
    "1,1,",
    ",1,1",
    "1,,1",
    "1,1,1",
    " 1,1",
    "1 ,1",
    "1, 1",
    "1,1 ",
    "+1,1",
    "1,+1",
    "-1,1",
    "1,-0",
    "000001,1",
    "1,000001",
    "000000,0",
    "065535,1",
    "65536,1",
    "1,65536",
    "99999,1",
    "1,99999",
    "100000,1",
    "1,4294967297",
    "18446744073709551617,1",
    "1,1\r",
    "1\r,1",
    "x,1",
    "1,x",
    "1.0,1",
    "1;1",
    "1\t1",
    "0x1,1",
    "label,wait",
    "\0",
    "\u{661},1",
];

/// Lines of two values, one of them out of its range.
pub const OUTSIDE: [&str; 14] = [
    "0,0",
    "0,1",
    "00000,1",
    "255,1",
    "00255,0",
    "256,1",
    "65535,1",
    "1,6001",
    "1,06001",
    "254,6001",
    "1,65535",
    "0,6001",
    "255,65535",
    "65535,65535",
];

/// Lines of two values in their ranges.
pub const LAWFUL: [&str; 8] =
    ["1,0", "1,6000", "254,0", "254,6000", "00001,06000", "00254,00000", "01,1", "99,0000"];

/// The file with these lines.
pub fn file_of(lines: &[impl AsRef<str>]) -> Vec<u8> {
    let mut file = WAIT_NAMES.to_vec();
    for line in lines {
        file.extend(line.as_ref().bytes());
        file.push(b'\n');
    }
    file
}

/// The file with these labels and waits.
pub fn of(lines: &[(u32, u32)]) -> Vec<u8> {
    let lines: Vec<Line> = lines.iter().map(|(label, wait)| format!("{label},{wait}")).collect();
    file_of(&lines)
}

/// A line for every label, all with this wait.
pub fn every(wait: u32) -> Vec<u8> {
    of(&(1..=FOLLOWED).map(|label| (label, wait)).collect::<Vec<_>>())
}

/// The lines of a lawful file: for all labels, for the first ones and some others, or for few.
fn lines(prng: &mut Prng) -> Vec<(u32, u32)> {
    let (first, others) = *prng.pick(&[(0, 1), (2, 60), (2, 2), (5, 10), (0, 60), (1, 1000)]);
    let wait = |prng: &mut Prng| match prng.one_in(3) {
        true => prng.within(0, WAIT),
        false => *prng.pick(&WAITS),
    };
    let mut lines = Vec::new();
    for label in 1..=FOLLOWED {
        if label <= first || prng.one_in(others) {
            lines.push((label, wait(prng)));
        }
    }
    lines
}

/// Each line as text, with zeros in front now and then.
fn written(prng: &mut Prng, lines: &[(u32, u32)]) -> Vec<Line> {
    let padded = prng.one_in(4);
    let mut text = |value: u32| match padded && prng.one_in(2) {
        true => format!("{value:0width$}", width = prng.below(6)),
        false => value.to_string(),
    };
    lines.iter().map(|(label, wait)| format!("{},{}", text(*label), text(*wait))).collect()
}

/// A random lawful file.
pub fn lawful(prng: &mut Prng) -> Vec<u8> {
    let lines = lines(prng);
    file_of(&written(prng, &lines))
}

/// A lawful file of few lines: for the labels that most random shows have, and some others.
pub fn short(prng: &mut Prng) -> Vec<u8> {
    let mut lines: Vec<(u32, u32)> = Vec::new();
    for label in [1, 2, prng.within(3, 99), prng.within(100, FOLLOWED)] {
        if prng.one_in(2) || label < 3 {
            lines.push((label, *prng.pick(&WAITS)));
        }
    }
    of(&lines)
}

/// A file with one to three faults in its lines, in its bytes, or in both. Some are lawful all the same.
pub fn damaged(prng: &mut Prng) -> Vec<u8> {
    let lines = lines(prng);
    let mut lines = written(prng, &lines);
    lines.truncate(1 + prng.below(40));
    for _ in 0..prng.below(4) {
        fault(prng, &mut lines);
    }
    let mut file = file_of(&lines);
    if prng.one_in(3) {
        byte(prng, &mut file);
    }
    file
}

/// Another line, one more, one less, or two in another order.
fn fault(prng: &mut Prng, lines: &mut Vec<Line>) {
    let place = prng.below(lines.len() + 1);
    let odd = match prng.below(4) {
        0 => prng.pick(&MALFORMED).to_string(),
        1 | 2 => prng.pick(&OUTSIDE).to_string(),
        _ => prng.pick(&LAWFUL).to_string(),
    };
    match (prng.below(5), lines.get(place).cloned()) {
        (0, Some(_)) => lines[place] = odd,
        (1, Some(line)) => lines.insert(place, line),
        (2, Some(_)) => lines.swap(place, 0),
        (3, Some(line)) => {
            lines[place] = format!("{line}{}", prng.pick(&["0", "1", " ", ",", "\r"]))
        }
        _ => lines.insert(place, odd),
    }
}

/// One byte changed, put in or left out, or the file cut behind it.
fn byte(prng: &mut Prng, file: &mut Vec<u8>) {
    let place = prng.below(file.len());
    let odd = *prng.pick(b"\r\n ,+-019.;\0a\xFF");
    match prng.below(4) {
        0 => file[place] = odd,
        1 => file.insert(place, odd),
        2 => drop(file.remove(place)),
        _ => file.truncate(place),
    }
}

/// Every file of up to four lines, each of which is right, malformed, out of range, or not above the line
/// before it; with its refusal, if it has one.
pub fn mixed() -> Vec<(Vec<u8>, Option<Refusal>)> {
    let mut all = Vec::new();
    for length in 1..=4u32 {
        for number in 0..4u32.pow(length) {
            let kinds: Vec<u32> = (0..length).map(|place| number >> (2 * place) & 3).collect();
            // No line stands before the first.
            if kinds[0] != 3 {
                all.push((file_of(&of_kinds(&kinds)), first_of(&kinds)));
            }
        }
    }
    all
}

fn of_kinds(kinds: &[u32]) -> Vec<Line> {
    let mut label = 0;
    let line = |kind: &u32| {
        label += u32::from(*kind < 3);
        match kind {
            1 => format!("{label}"),
            2 => format!("{label},{}", WAIT + 1),
            _ => format!("{label},{WAIT}"),
        }
    };
    kinds.iter().map(line).collect()
}

/// 15 for the first line of kind 1, then 16 for that of kind 2, then 17 for that of kind 3.
fn first_of(kinds: &[u32]) -> Option<Refusal> {
    (1..4).find_map(|kind| {
        let place = kinds.iter().position(|other| *other == kind)?;
        Some(Refusal::new(14 + kind, place + 2))
    })
}

/// A short way of one link with label 3, and a detour of two with label 1.
pub fn detour() -> Vec<u32> {
    let mut build = Build::default();
    build.open(0, 3);
    build.link(3, 1, 2);
    build.link(1, 1, 3);
    build.link(1, 3, 2);
    build.numbers()
}

/// Two cues, and a block between them in which a way of one link is slow (label 9), one of two links goes
/// over a copy of another block (labels 7 and 8), and one of four is quick (label 5). Back by label 254.
pub fn three_ways() -> Vec<u32> {
    let mut build = Build::default();
    build.open(2, 1);
    build.link(8, 1, 3);
    build.link(7, 2, 1);
    build.open(2, 3);
    build.link(5, 1, 2);
    build.link(5, 2, 3);
    build.link(5, 3, 5);
    build.link(5, 4, 1);
    build.link(9, 4, 5);
    build.take(0, &[4, 5]);
    build.open(0, 2);
    build.link(254, 2, 1);
    build.link(255, 2, 1);
    build.take(1, &[1, 2]);
    build.numbers()
}

#[cfg(test)]
mod tests {
    use super::*;
    use crate::naive::waits::Waits;

    fn refusal(file: &[u8]) -> Option<Refusal> {
        Waits::of_file(file).err()
    }

    #[test]
    fn lawful_files_are_lawful() {
        for case in 0..2000 {
            let file = lawful(&mut Prng::new(51, case));
            assert_eq!(refusal(&file), None, "{}", file.escape_ascii());
        }
        assert_eq!(refusal(&every(WAIT)), None);
    }

    #[test]
    fn damaged_files_are_refused_in_every_way() {
        let mut counts = [0; 4];
        for case in 0..3000 {
            let file = damaged(&mut Prng::new(52, case));
            counts[refusal(&file).map_or(0, |refusal| refusal.number as usize - 14)] += 1;
        }
        assert!(counts.iter().all(|count| *count > 200), "lawful, then 15 to 17: {counts:?}");
    }
}
