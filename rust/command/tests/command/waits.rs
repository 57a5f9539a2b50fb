//! Wait files: what is explained is what the library refuses, and the column that is named is the one that is
//! wrong; what the command does with them.

use std::collections::BTreeMap;

use second::gen::prng::Prng;
use second::gen::{edges, waits};
use show::{Place, Refused};
use show_command::explain::{self, Explained, Form, WAIT_NAMES};
use show_command::words::{Clock, Seconds};

use crate::columns::{said_of, value};
use crate::common::{ring, said, waits_refusal, written};

/// Damaged files.
const DAMAGED: u64 = 20_000;

/// Looks at every file.
fn each(mut look: impl FnMut(&[u8])) {
    (0..DAMAGED).for_each(|case| look(&waits::damaged(&mut Prng::new(61, case))));
    (0..DAMAGED / 4).for_each(|case| look(&spoiled(&mut Prng::new(62, case))));
    let bases: [&[&str]; 4] =
        [&["1,10", "2,00025", "254,6000"], &["1,10"], &["00001,00000", "3,6000"], &[]];
    for base in bases {
        let file = waits::file_of(base);
        edges::near_files(&file).iter().for_each(|file| look(file));
        for line in waits::MALFORMED.iter().chain(&waits::OUTSIDE).chain(&waits::LAWFUL) {
            for place in 0..=base.len() {
                let lines = [&base[..place], &[line], &base[place..]].concat();
                look(&waits::file_of(&lines));
            }
        }
    }
    waits::mixed().iter().for_each(|(file, _)| look(file));
    for many in [254, 255, 70_000] {
        let lines = [WAIT_NAMES.as_bytes(), b"\n", &b"7,1\n".repeat(many)].concat();
        for end in [&b""[..], b"7,6001\n", b"7,1", b"0,0\n"] {
            look(&[&lines[..], end].concat());
        }
    }
}

/// What other programs do to a file of values.
fn spoiled(prng: &mut Prng) -> Vec<u8> {
    let file = if prng.one_in(2) { waits::lawful(prng) } else { waits::damaged(prng) };
    let swapped = |from: u8, to: &[u8]| {
        let parts: Vec<&[u8]> = file.split(|byte| *byte == from).collect();
        parts.join(to)
    };
    let mut file = match prng.below(9) {
        0 => swapped(b'\n', b"\r\n"),
        1 => swapped(b',', b";"),
        2 => swapped(b',', b"\t"),
        3 => swapped(b',', b", "),
        4 => swapped(b',', b"\",\""),
        5 => [&[0xEF, 0xBB, 0xBF], &file[..]].concat(),
        6 => file.iter().flat_map(|byte| [*byte, 0]).collect(),
        7 => file.to_ascii_uppercase(),
        _ => file.get(WAIT_NAMES.len() + 1..).unwrap_or_default().to_vec(),
    };
    // Most of these are wrong in line 1 already, so half of them get their names back.
    if prng.one_in(2) {
        let end = file.iter().position(|byte| *byte == b'\n').map_or(file.len(), |end| end + 1);
        file.splice(..end, b"label,wait\n".iter().copied());
    }
    file
}

/// What is wrong with a wait file, after a look at what the library says of it.
pub fn of(file: &[u8]) -> Option<Explained> {
    let found = explain::waits_found(file);
    let refused = waits_refusal(file);
    let placed = |refused: Refused| match refused.place() {
        Some(Place::Line(line)) => (refused.number(), Some(line)),
        other => panic!("a wait file has no {other:?}"),
    };
    let by_us = found.as_ref().map(|found| (found.number, found.line));
    assert_eq!(by_us, refused.map(placed), "{found:?}\n{}", file.escape_ascii());
    if let (Some(found), Some(refused)) = (&found, refused) {
        assert_eq!(&explain::waits(file, refused), found);
        assert_eq!(found.form, Form::Waits);
        let number = found.cause.number();
        assert!(number == found.number || (found.number == 15 && (2..=3).contains(&number)));
    }
    found
}

#[test]
fn number_and_line_are_those_of_the_library() {
    let (mut seen, mut files, mut accepted): (BTreeMap<&str, u32>, u32, u32) = Default::default();
    each(|file| {
        files += 1;
        match of(file) {
            Some(found) => *seen.entry(found.cause.name()).or_default() += 1,
            None => accepted += 1,
        }
    });
    assert!(files > 25_000 && accepted > 2000, "{files} files, {accepted} accepted");
    // Those of the names, those of a line, and those of labels and waits.
    assert_eq!(seen.len(), 16 + 21 + 4, "{seen:?}");
}

/// With a value in the named column that the sentence allows, the explanation goes away; with one that it
/// does not allow, it stays.
#[test]
fn another_value_in_the_named_column_helps() {
    let mut seen: BTreeMap<&str, u32> = BTreeMap::new();
    each(|file| {
        let Some(found) = of(file) else { return };
        let (Some(line), Some(column)) = (found.line, found.column) else { return };
        let times = seen.entry(found.cause.name()).or_default();
        *times += 1;
        if *times > 500 {
            return;
        }
        let place = |found: &Explained| (found.number, found.line, found.column);
        let same = |text: &str| {
            let mut file = file.to_vec();
            file.splice(value(&file, line, column), text.bytes());
            of(&file).is_some_and(|then| place(&then) == place(&found))
        };
        let (allowed, others) = said_of(&found.cause.to_string());
        assert!(allowed.iter().all(|value| !same(&value.to_string())), "{found}");
        assert!(
            others.iter().all(|value| found.number == 15 || same(&value.to_string())),
            "{found}"
        );
        if found.number == 17 {
            let before = &file[value(file, line - 1, column)];
            let before: u32 =
                std::str::from_utf8(before).expect("digits").parse().expect("a label");
            let above = (before + 1).to_string();
            assert!(same("1") && same(&before.to_string()), "{found}");
            assert!(before == show::MAX_FOLLOWED || !same(&above), "{found}");
        } else if found.number == 15 && line > 1 {
            assert!(!same("1") && !same("65535") && same("x"), "{found}");
        } else if line == 1 {
            assert!(!same(Form::Waits.column(column)), "{found}");
        }
    });
    assert_eq!(seen.len(), 18, "{seen:?}");
}

/// The command's words for a wait file that is refused, in a process.
#[test]
fn a_refused_wait_file_is_named() {
    let cases: [(&[u8], &str); 6] = [
        (b"", "line 1: the file is empty; its first line must be label,wait (refusal 15)"),
        (b"label,wait\n1,10", "line 2: the line feed is missing; one ends every line, also the last (refusal 15)"),
        (b"label,wait\n1,10\n2,2.5\n", "line 3, wait: a point stands in this value; a value is a whole number (refusal 15)"),
        (b"label,wait\n1,6001\n", "line 2, wait: 6001; a wait is 0 to 6,000 tenths of a second (refusal 16)"),
        (b"label,wait\n255,1\n", "line 2, label: 255; a label that waits is 1 to 254 (refusal 16)"),
        (b"label,wait\n2,1\n1,1\n", "line 3, label: 1; labels rise from line to line, and the line before has 2 here (refusal 17)"),
    ];
    for (file, told) in cases {
        let name = written("refused_waits.csv", file);
        for (name, told) in [
            (&name[..], format!("show: {name}: {told}\n")),
            ("-", format!("show: standard input: {told}\n")),
        ] {
            let asked: [&[&str]; 4] = [
                &["quickest", "shows/ring.csv", name, "1", "2"],
                &["quickest", "shows/ring.csv", name, "3", "3"],
                &["picture", "shows/ring.csv", name],
                &["picture", "--unfolded", "shows/ring.csv", name],
            ];
            for words in asked {
                assert_eq!(said(words, file), (1, String::new(), told.clone()), "{words:?}");
            }
        }
    }
}

/// What is refused of the show and of its cues comes before the wait file.
#[test]
fn the_show_is_refused_before_the_wait_file() {
    let broken = written("broken_waits.csv", b"label,wait\n0,0\n");
    let words = |s: &'static str| ["quickest", "shows/ring.csv", &broken, s, "2"].map(String::from);
    let ask = |words: [String; 5]| said(&words.each_ref().map(String::as_str), b"");
    let no_cue = "show: shows/ring.csv: cue 6; the show has cues 1 to 5 (refusal 12)\n";
    assert_eq!(ask(words("6")), (1, String::new(), no_cue.to_string()));
    let (status, _, told) = said(&["quickest", "shows/tower32.csv", &broken, "1", "2"], b"");
    assert!(status == 1 && told.contains("(refusal 10)"), "{told}");
    let (status, _, told) = said(&["quickest", "-", "shows/none.csv", "1", "2"], b"");
    assert!(status == 1 && told.contains("(refusal 2)"), "{told}");
}

#[test]
fn a_wait_file_that_cannot_be_read_is_said() {
    for file in ["shows/none.csv", "shows"] {
        for words in [
            &["quickest", "shows/ring.csv", file, "1", "2"][..],
            &["picture", "shows/ring.csv", file],
        ] {
            let (status, printed, told) = said(words, b"");
            assert_eq!((status, printed.as_str()), (2, ""));
            assert!(told.starts_with(&format!("show: {file}: ")) && told.len() > file.len() + 10);
        }
    }
}

#[test]
fn either_file_may_be_standard_input() {
    let answer = (0, "quickest,time\n40,0:04.0\n".to_string(), String::new());
    let waits = b"label,wait\n00001,10\n2,25\n";
    assert_eq!(said(&["quickest", "shows/ring.csv", "-", "1", "2"], waits), answer);
    assert_eq!(said(&["quickest", "-", "shows/ring_waits.csv", "1", "2"], &ring()), answer);
}

/// A wait file has no limit, so an endless one is read up to a line that is none.
#[test]
fn an_endless_line_is_refused() {
    let told =
        "show: /dev/zero: line 1: the line has 1 name; the two are label,wait (refusal 15)\n";
    let asked = said(&["quickest", "shows/ring.csv", "/dev/zero", "1", "2"], b"");
    assert_eq!(asked, (1, String::new(), told.to_string()));
    let long = [b"label,wait\n".to_vec(), vec![b'1'; 300_000]].concat();
    let (status, _, told) = said(&["quickest", "shows/ring.csv", "-", "1", "2"], &long);
    let digits = told.split_whitespace().find_map(|word| word.parse::<usize>().ok());
    assert!(status == 1 && told.contains("line 2, label: ") && digits > Some(5), "{told}");
}

#[test]
fn a_long_wait_file_is_read_to_its_end() {
    let mut long = [b"label,wait\n".to_vec(), b"1,1\n".repeat(100_000)].concat();
    let ask = |file: &[u8]| said(&["quickest", "shows/ring.csv", "-", "1", "2"], file).2;
    assert!(ask(&long).contains("line 3, label: 1; the line before has this label too"));
    long.extend(b"1,6001\n");
    assert!(ask(&long).contains("line 100002, wait: 6001;"));
    long.extend(b"1");
    assert!(ask(&long).contains("line 100003: the file ends behind 1 value of this line;"));
}

#[test]
fn waits_are_drawn() {
    let (status, blocks, told) = said(&["picture", "shows/ring.csv", "shows/ring_waits.csv"], b"");
    assert_eq!((status, told.as_str()), (0, ""));
    assert!(blocks.contains("b2c2 -> b2c1 [label=\"2, 2.5 s\"];"), "{blocks}");
    assert_eq!(blocks.matches("[label=\"1, 1.0 s\"];").count(), 2);
    let words = ["picture", "--unfolded", "shows/ring.csv", "shows/ring_waits.csv"];
    let (_, unfolded, _) = said(&words, b"");
    assert!(unfolded.contains("2 -> 1 [label=\"2, 2.5 s\"];"), "{unfolded}");
    let (_, desk, _) =
        said(&["picture", "--desk", "shows/desk_run.csv", "shows/ring_waits.csv"], b"");
    assert!(
        desk.contains("[label=\"7, 0.0 s\"];") && desk.contains("[label=\"255\", style=dashed];")
    );
}

#[test]
fn help_says_the_ranges_of_a_wait_file() {
    let (_, help, _) = said(&["--help"], b"");
    assert!(help.contains(&format!("the label,\n          1 to {}", show::MAX_FOLLOWED)));
    assert!(help.contains(&format!("0 to {} tenths", show::MAX_WAIT)));
}

#[test]
fn tenths_are_told_as_time() {
    let told = [
        (0, "0:00.0", "0.0"),
        (9, "0:00.9", "0.9"),
        (10, "0:01.0", "1.0"),
        (599, "0:59.9", "59.9"),
        (600, "1:00.0", "60.0"),
        (6_000, "10:00.0", "600.0"),
        (35_999, "59:59.9", "3599.9"),
        (36_000, "1:00:00.0", "3600.0"),
        (36_605, "1:01:00.5", "3660.5"),
        (6_442_450_944_000, "178956970:40:00.0", "644245094400.0"),
        (u64::MAX, "512409557603043:06:01.5", "1844674407370955161.5"),
    ];
    for (tenths, clock, seconds) in told {
        assert_eq!(
            (Clock(tenths).to_string(), Seconds(tenths).to_string()),
            (clock.into(), seconds.into())
        );
    }
}
