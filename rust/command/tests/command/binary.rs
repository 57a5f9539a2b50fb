//! The command itself, run in a process: what it prints for the ring, and how it ends.

use std::fs::File;
use std::io::{BufRead, BufReader, Read};
use std::process::{Command, Stdio};

use second::gen::known;
use show_command::commands::COMMANDS;

use crate::common::{desk_run, file_of, noted_ring, ring, said, started};

const RING: &str = "shows/ring.csv";
const NOTED: &str = "shows/noted_ring.csv";
const DESK: &str = "shows/desk_run.csv";
const WAITS: &str = "shows/ring_waits.csv";
const RING_FILE: &str = include_str!("../../../../shows/ring.csv");
const BLOCKS: &str = include_str!("../../src/picture/ring-blocks.dot");
const UNFOLDED: &str = include_str!("../../src/picture/ring-unfolded.dot");

/// Every command on the ring, some on the ring with a note, and some on a show on the desk's blocks, with
/// what they print.
const ANSWERS: &[(&[&str], &str)] = &[
    (&["check", RING], "blocks,rows,cues\n3,9,5\n"),
    (&["count", RING], "cues\n5\n"),
    (&["locate", RING, "4"], "depth,block,own,path\n2,0,1,1.1\n"),
    (&["locate", RING, "3"], "depth,block,own,path\n1,1,1,1\n"),
    (&["locate", RING, "0002"], "depth,block,own,path\n0,2,2,-\n"),
    (&["number", RING, "1,2", "1"], "cue\n5\n"),
    (&["number", RING, "1.2", "1"], "cue\n5\n"),
    (&["number", RING, "-", "2"], "cue\n2\n"),
    (&["out", RING, "1"], "to\n5\n"),
    (&["in", RING, "1"], "from\n2\n"),
    (&["fewest", RING, "1", "2"], "fewest\n4\n"),
    (&["fewest", RING, "3", "3"], "fewest\n0\n"),
    (&["fewest", RING, "4", "3"], "fewest\n4\n"),
    (&["fewest", NOTED, "4", "3"], "fewest\nnone\n"),
    (&["fewest", NOTED, "2", "1"], "fewest\nnone\n"),
    (&["fewest", NOTED, "1", "2"], "fewest\n4\n"),
    (&["out", NOTED, "2"], "to\n1\n"),
    (&["in", NOTED, "1"], "from\n2\n"),
    (&["fewest", "shows/tower31.csv", "1", "2"], "fewest\nnone\n"),
    (&["quickest", RING, WAITS, "1", "2"], "quickest,time\n40,0:04.0\n"),
    (&["quickest", RING, WAITS, "4", "3"], "quickest,time\n55,0:05.5\n"),
    (&["quickest", RING, WAITS, "3", "3"], "quickest,time\n0,0:00.0\n"),
    (&["quickest", NOTED, WAITS, "4", "3"], "quickest,time\nnone,-\n"),
    (&["quickest", NOTED, WAITS, "1", "2"], "quickest,time\n40,0:04.0\n"),
    (&["quickest", "shows/tower31.csv", WAITS, "1", "2"], "quickest,time\nnone,-\n"),
    (
        &["quickest", "shows/long_ring.csv", WAITS, "1", "2"],
        "quickest,time\n10737418240,298261:37:04.0\n",
    ),
    (&["count", "shows/tower31.csv"], "cues\n2147483647\n"),
    (
        &["row", RING, "2", "1"],
        "row,line,depth,path,block,kind,label,a,b,c,d,e,f,g,h\n8,9,0,-,2,1,2,2,1,0,0,0,0,0,0\n",
    ),
    (
        &["row", RING, "4", "2"],
        "row,line,depth,path,block,kind,label,a,b,c,d,e,f,g,h\n2,3,2,1.1,0,1,1,1,3,0,0,0,0,0,0\n",
    ),
    (
        &["row", NOTED, "2", "1"],
        "row,line,depth,path,block,kind,label,a,b,c,d,e,f,g,h\n8,9,0,-,2,1,255,2,1,0,0,0,0,0,0\n",
    ),
    (&["links", "shows/tower31.csv"], "cues\n2147483647\n"),
    (&["links", NOTED], "from,to,label\n1,5,1\n2,1,255\n3,4,1\n4,2,1\n5,3,1\n"),
    (&["links", RING], "from,to,label\n1,5,1\n2,1,2\n3,4,1\n4,2,1\n5,3,1\n"),
    (&["write", RING], RING_FILE),
    (&["check", "--desk", DESK], "blocks,rows,cues\n18,177,20\n"),
    (&["check", DESK, "--desk"], "blocks,rows,cues\n18,177,20\n"),
    (&["count", "--desk", DESK], "cues\n20\n"),
    (&["locate", "--desk", DESK, "20"], "depth,block,own,path\n2,4,5,3.2\n"),
    (&["number", "--desk", DESK, "3.2", "5"], "cue\n20\n"),
    (&["out", "--desk", DESK, "1"], "to\n2\n7\n"),
    (&["in", "--desk", DESK, "2"], "from\n1\n3\n6\n15\n"),
    (&["fewest", "--desk", DESK, "1", "3"], "fewest\n11\n"),
    (&["fewest", DESK, "1", "--desk", "2"], "fewest\n9\n"),
    (&["quickest", "--desk", DESK, WAITS, "1", "3"], "quickest,time\n110,0:11.0\n"),
    (
        &["row", "--desk", DESK, "3", "1"],
        "row,line,depth,path,block,kind,label,a,b,c,d,e,f,g,h\n174,7,0,-,17,1,7,3,1,0,0,0,0,0,0\n",
    ),
    (
        &["row", "--desk", DESK, "3", "2"],
        "row,line,depth,path,block,kind,label,a,b,c,d,e,f,g,h\n170,3,1,3,16,1,255,2,3,0,0,0,0,0,0\n",
    ),
    (
        &["row", "--desk", DESK, "12", "3"],
        "row,line,depth,path,block,kind,label,a,b,c,d,e,f,g,h\n2,-,1,2,0,1,1,1,3,0,0,0,0,0,0\n",
    ),
    (
        &["row", "--desk", DESK, "1", "7"],
        "row,line,depth,path,block,kind,label,a,b,c,d,e,f,g,h\n25,-,2,1.2,4,1,1,6,1,0,0,0,0,0,0\n",
    ),
    (&["picture", RING], BLOCKS),
    (&["picture", "--unfolded", RING], UNFOLDED),
    (&["picture", RING, "--unfolded"], UNFOLDED),
    (&["--version"], "show 0.6.0\n"),
    (&["-V"], "show 0.6.0\n"),
];

#[test]
fn answers_are_printed_to_the_letter() {
    for (words, printed) in ANSWERS {
        assert_eq!(said(words, b""), (0, printed.to_string(), String::new()), "{words:?}");
    }
}

#[test]
fn the_version_is_that_of_the_library() {
    assert_eq!(said(&["--version"], b"").1, format!("show {}\n", show::VERSION));
}

#[test]
fn a_dash_is_standard_input() {
    for (name, file) in [(RING, ring()), (NOTED, noted_ring()), (DESK, desk_run())] {
        for (words, printed) in ANSWERS.iter().filter(|(words, _)| words.contains(&name)) {
            let words: Vec<&str> =
                words.iter().map(|word| if *word == name { "-" } else { word }).collect();
            let printed = printed.replace(">ring:", ">standard input:");
            assert_eq!(said(&words, &file), (0, printed, String::new()), "{words:?}");
        }
    }
}

/// Words that are wrong, and what is said of them.
const WRONG: &[(&[&str], &str)] = &[
    (&["chekc", RING], "unknown word 'chekc'"),
    (&["--nothing"], "unknown word '--nothing'"),
    (&["help", "chekc"], "unknown word 'chekc'"),
    (&["--version", "now"], "'now' is one word too many"),
    (&["help", "check", "now"], "'now' is one word too many"),
    (&["check"], "check: FILE is missing"),
    (&["check", RING, RING], "check: 'shows/ring.csv' is one word too many"),
    (&["check", "--unfolded", RING], "check: unknown word '--unfolded'"),
    (&["picture", "--folded", RING], "picture: unknown word '--folded'"),
    (&["check", "--desks", DESK], "check: unknown word '--desks'"),
    (&["check", "--desk"], "check: FILE is missing"),
    (&["fewest", "--desk", DESK, "1"], "fewest: T is missing"),
    (&["write", RING, "1"], "write: '1' is one word too many"),
    (&["count", RING, "1"], "count: '1' is one word too many"),
    (&["locate", RING], "locate: N is missing"),
    (&["locate", RING, "one"], "locate: 'one' is no number"),
    (&["locate", RING, ""], "locate: '' is no number"),
    (&["locate", RING, "-1"], "locate: '-1' is no number"),
    (&["locate", RING, "+1"], "locate: '+1' is no number"),
    (&["locate", RING, "1.5"], "locate: '1.5' is no number"),
    (
        &["locate", RING, "4294967296"],
        "locate: 4294967296 is too large; a number here is at most 4294967295",
    ),
    (&["number", RING, "1"], "number: CUE is missing"),
    (&["number", RING, "1..2", "1"], "number: PATH '1..2' has an empty step; the empty path is -"),
    (&["number", RING, "1,", "1"], "number: PATH '1,' has an empty step; the empty path is -"),
    (&["number", RING, "", "1"], "number: PATH '' has an empty step; the empty path is -"),
    (&["number", RING, "1-2", "1"], "number: '1-2' is no number"),
    (
        &["number", RING, "1,99999999999999999999999", "1"],
        "number: 99999999999999999999999 is too large; a number here is at most 4294967295",
    ),
    (&["out", RING, "x"], "out: 'x' is no number"),
    (&["in", RING], "in: CUE is missing"),
    (&["fewest", RING, "1"], "fewest: T is missing"),
    (&["fewest", RING, "1", "2", "3"], "fewest: '3' is one word too many"),
    (&["quickest", RING], "quickest: WAITS is missing"),
    (&["quickest", RING, WAITS, "1"], "quickest: T is missing"),
    (&["quickest", RING, WAITS, "1", "x"], "quickest: 'x' is no number"),
    (&["quickest", RING, WAITS, "1", "2", "3"], "quickest: '3' is one word too many"),
    (
        &["quickest", "-", "-", "1", "2"],
        "quickest: FILE and WAITS are both -; only one of them can be standard input",
    ),
    (
        &["picture", "-", "-"],
        "picture: FILE and WAITS are both -; only one of them can be standard input",
    ),
    (&["picture", RING, WAITS, WAITS], "picture: 'shows/ring_waits.csv' is one word too many"),
    (&["row", RING], "row: S is missing"),
    (&["row", RING, "2"], "row: T is missing"),
    (&["row", RING, "2", "x"], "row: 'x' is no number"),
    (&["links"], "links: FILE is missing"),
];

#[test]
fn wrong_use_names_the_usage_line() {
    for (words, problem) in WRONG {
        let (status, printed, told) = said(words, b"");
        assert_eq!((status, printed.as_str()), (2, ""), "{words:?}");
        let (first, usage) = told.split_once('\n').expect("a usage line");
        assert_eq!(first, format!("show: {problem}"));
        let command = COMMANDS.iter().find(|command| command.word == words[0]);
        match command {
            Some(command) => assert_eq!(usage, format!("usage: {}\n", command.usage())),
            None => assert!(usage.starts_with("usage: show "), "{usage}"),
        }
    }
    let (status, printed, told) = said(&[], b"");
    assert_eq!((status, printed.as_str()), (2, ""));
    assert!(told.starts_with("show: a command is missing\nusage: show COMMAND FILE"));
}

#[test]
fn help_lists_every_command() {
    let (status, all, told) = said(&["--help"], b"");
    assert_eq!((status, told.as_str()), (0, ""));
    for words in [&["help"][..], &["-h"]] {
        assert_eq!(said(words, b""), (0, all.clone(), String::new()));
    }
    for command in &COMMANDS {
        assert!(all.contains(&format!("\n  {} ", command.usage())), "{}", command.word);
        let usage = format!("usage: {}\n", command.usage());
        let ways = [["help", command.word], [command.word, "--help"], [command.word, "-h"]];
        for words in ways {
            let (status, printed, told) = said(&words, b"");
            assert_eq!((status, told.as_str()), (0, ""), "{words:?}");
            assert!(printed.starts_with(&usage), "{printed}");
        }
    }
    assert!(all.lines().all(|line| line.len() <= 108), "a line of the help is too long");
}

#[test]
fn help_says_what_comes_with_the_desk() {
    let (last, next) = (show::DESK_BLOCKS - 1, show::DESK_BLOCKS);
    let (_, help, _) = said(&["--help"], b"");
    assert!(help.contains(&format!(
        "come with the desk, 0 to {last}: its first row opens\n          block {next}"
    )));
    for command in &COMMANDS {
        assert!(command.usage().contains(" [--desk]"), "{}", command.word);
    }
}

#[test]
fn help_says_which_label_is_not_followed() {
    let note = format!("with label {}, are", show::MAX_FOLLOWED + 1);
    for word in ["fewest", "quickest", "picture"] {
        assert!(said(&[word, "--help"], b"").1.contains(&note), "{word}");
    }
}

#[test]
fn a_refusal_is_explained_by_every_command() {
    let file = file_of(&known::tower(32));
    let lines = [
        (&file[..], "line 93: block 31 stands for 4,294,967,295 cues; at most 2,147,483,647 are allowed (refusal 10)"),
        (b"block;kind", "line 1: the line has 1 name; the eleven are block,kind,label,a,b,c,d,e,f,g,h (refusal 2)"),
        (b"", "line 1: the file is empty; its first line must be block,kind,label,a,b,c,d,e,f,g,h (refusal 2)"),
    ];
    for (file, explained) in lines {
        for command in &COMMANDS {
            let usage = command.usage();
            let takes = usage.split_once(" FILE").expect("every command has a file").1;
            let numbers = takes.split_whitespace().map(|_| "1");
            let words: Vec<&str> = [command.word, "-"].into_iter().chain(numbers).collect();
            let told = format!("show: standard input: {explained}\n");
            assert_eq!(said(&words, file), (1, String::new(), told), "{words:?}");
        }
    }
}

#[test]
fn a_refusal_behind_the_desk_is_explained_by_every_command() {
    let explained =
        "line 2, block: 0; the desk's blocks are 0 to 15, and the first row of the file \
        opens the next one, so this must be 16 (refusal 5)";
    for command in &COMMANDS {
        let numbers = command.takes.iter().map(|_| "1");
        let words: Vec<&str> = [command.word, "--desk", "-"].into_iter().chain(numbers).collect();
        let told = format!("show: standard input: {explained}\n");
        assert_eq!(said(&words, &ring()), (1, String::new(), told), "{words:?}");
    }
}

#[test]
fn a_whole_file_is_written_and_read_again() {
    let (status, whole, told) = said(&["write", "--desk", DESK], b"");
    assert_eq!((status, told.as_str()), (0, ""));
    assert_eq!(whole.lines().count(), 1 + show::DESK_ROWS + 9);
    let (names, rows) = whole.split_once('\n').expect("a line of names");
    let own = String::from_utf8(desk_run()).expect("a file is text");
    let (own_names, own) = own.split_once('\n').expect("a line of names");
    assert!(names == own_names && rows.starts_with("0,0,2,1,0,") && rows.ends_with(own));
    for (words, printed) in ANSWERS.iter().filter(|(words, _)| words.contains(&DESK)) {
        // A whole file has lines for all rows.
        let words = words.iter().filter(|word| **word != "--desk" && words[0] != "row");
        let words: Vec<&str> = words.map(|word| if *word == DESK { "-" } else { word }).collect();
        if !words.is_empty() {
            let answer = said(&words, whole.as_bytes());
            assert_eq!(answer, (0, printed.to_string(), String::new()), "{words:?}");
        }
    }
}

#[test]
fn the_blocks_of_the_desk_are_drawn() {
    let (_, blocks, _) = said(&["picture", "--desk", DESK], b"");
    assert_eq!(blocks.matches("subgraph").count(), 18);
    assert!(
        blocks.contains("block 15: total 16\"") && blocks.contains("block 17, the show: total 20")
    );
    let (_, unfolded, _) = said(&["picture", "--unfolded", "--desk", DESK], b"");
    assert_eq!(unfolded.matches("subgraph").count(), 8);
    assert!(
        unfolded.contains("path 3, 2: block 4") && unfolded.contains(" 20 -> 13 [label=\"1\"];")
    );
}

#[test]
fn questions_without_an_answer_are_refused() {
    let cases: &[(&[&str], &str)] = &[
        (&["locate", RING, "0"], "cue 0; the show has cues 1 to 5 (refusal 12)"),
        (&["out", RING, "4294967295"], "cue 4294967295; the show has cues 1 to 5 (refusal 12)"),
        (&["in", RING, "6"], "cue 6; the show has cues 1 to 5 (refusal 12)"),
        (&["fewest", RING, "7", "6"], "cue 7; the show has cues 1 to 5 (refusal 12)"),
        (&["fewest", RING, "1", "6"], "cue 6; the show has cues 1 to 5 (refusal 12)"),
        (&["row", RING, "0", "6"], "cue 0; the show has cues 1 to 5 (refusal 12)"),
        (&["row", RING, "1", "6"], "cue 6; the show has cues 1 to 5 (refusal 12)"),
        (
            &["row", RING, "1", "2"],
            "no link leads from cue 1 to cue 2; one leads from 2 to 1 (refusal 14)",
        ),
        (
            &["row", RING, "1", "3"],
            "no link leads from cue 1 to cue 3; `show out` lists what follows on from 1 (refusal 14)",
        ),
        (
            &["row", RING, "3", "3"],
            "no link leads from cue 3 to itself; a link is between two cues (refusal 14)",
        ),
        (
            &["number", RING, "2", "1"],
            "step 1 of the path is 2; block 2 has uses 1 to 1 (refusal 13)",
        ),
        (&["number", RING, "-", "3"], "own cue 3; block 2 has own cues 1 to 2 (refusal 13)"),
        (
            &["number", RING, "1,4294967295", "0"],
            "step 2 of the path is 4294967295; block 1 has uses 1 to 2 (refusal 13)",
        ),
    ];
    for (words, explained) in cases {
        let told = format!("show: {RING}: {explained}\n");
        assert_eq!(said(words, b""), (1, String::new(), told));
    }
}

#[test]
fn what_cannot_be_read_is_said() {
    for file in ["shows/none.csv", "shows", "shows/ring.csv/more"] {
        let (status, printed, told) = said(&["check", file], b"");
        assert_eq!((status, printed.as_str()), (2, ""));
        assert!(told.starts_with(&format!("show: {file}: ")) && told.len() > file.len() + 10);
    }
    let mut command = Command::new(env!("CARGO_BIN_EXE_show"));
    command.args(["count", "-"]).stdin(File::open(env!("CARGO_MANIFEST_DIR")).expect("a folder"));
    let output = command.output().expect("the command ends");
    assert_eq!(output.status.code(), Some(2));
    assert!(output.stderr.starts_with(b"show: standard input: "));
}

#[cfg(target_os = "linux")]
#[test]
fn a_file_name_is_said_in_one_line() {
    for (name, told) in [("", "''"), ("no\nfile", "no\\nfile"), ("no file", "no file")] {
        let (status, printed, words) = said(&["check", name], b"");
        assert_eq!((status, printed.as_str()), (2, ""), "{name:?}");
        assert!(
            words.starts_with(&format!("show: {told}: ")) && words.lines().count() == 1,
            "{words}"
        );
    }
}

#[test]
fn an_endless_file_is_refused() {
    let told = "there are more than 65,536 bytes, the most that a show file has (refusal 1)";
    let told = format!("show: /dev/zero: {told}\n");
    assert_eq!(said(&["check", "/dev/zero"], b""), (1, String::new(), told));
}

#[test]
fn the_size_of_a_file_that_is_too_long_is_said() {
    let name = concat!(env!("CARGO_TARGET_TMPDIR"), "/too-long.csv");
    std::fs::write(name, vec![b'0'; 70_000]).expect("the folder can be written");
    let told = format!(
        "show: {name}: the file has 70,000 bytes; a show file has at most 65,536 (refusal 1)\n"
    );
    assert_eq!(said(&["check", name], b""), (1, String::new(), told));
}

#[cfg(unix)]
#[test]
fn a_name_may_have_any_bytes() {
    use std::os::unix::ffi::OsStrExt;
    for word in [&b"\xFF.csv"[..], b"-x", b"./--help"] {
        let mut command = Command::new(env!("CARGO_BIN_EXE_show"));
        command.arg("check").arg(std::ffi::OsStr::from_bytes(word));
        assert_eq!(command.output().expect("the command ends").status.code(), Some(2));
    }
    for words in [[&b"\xFF"[..], b"x"], [b"locate", b"\xFF"]] {
        let mut command = Command::new(env!("CARGO_BIN_EXE_show"));
        command.args(words.map(std::ffi::OsStr::from_bytes)).arg("\u{221e}");
        assert_eq!(command.output().expect("the command ends").status.code(), Some(2));
    }
}

#[cfg(target_os = "linux")]
#[test]
fn a_full_disk_is_said() {
    let full = || File::options().write(true).open("/dev/full").expect("there is such a file");
    let answers: [&[&str]; 5] =
        [&["check", RING], &["links", RING], &["write", RING], &["picture", RING], &["--help"]];
    for words in answers {
        let mut command = Command::new(env!("CARGO_BIN_EXE_show"));
        command.args(words).current_dir(concat!(env!("CARGO_MANIFEST_DIR"), "/../.."));
        let output = command.stdout(full()).output().expect("the command ends");
        assert_eq!(output.status.code(), Some(2));
        assert!(output.stderr.starts_with(b"show: standard output: "), "{words:?}");
        // Words that cannot be said either change nothing.
        let status = command.stdout(full()).stderr(full()).status().expect("the command ends");
        assert_eq!(status.code(), Some(2));
    }
}

#[test]
fn a_reader_may_stop_early() {
    let file = file_of(&known::millions());
    let mut child = started(&["links", "-"]);
    let mut stdin = child.stdin.take().expect("it is piped");
    std::io::Write::write_all(&mut stdin, &file).expect("the command reads it");
    drop(stdin);
    let mut first = String::new();
    let mut stdout = BufReader::new(child.stdout.take().expect("it is piped"));
    stdout.read_line(&mut first).expect("a line");
    drop(stdout);
    let mut told = String::new();
    child.stderr.take().expect("it is piped").read_to_string(&mut told).expect("text");
    assert_eq!((first.as_str(), told.as_str()), ("from,to,label\n", ""));
    assert_eq!(child.wait().expect("the command ends").code(), Some(0));
}

#[test]
fn large_shows_are_not_drawn_unfolded() {
    let drawn = |rows: &[u32]| said(&["picture", "--unfolded", "-"], &file_of(rows));
    let told = "show: standard input: 1,023 cues are too many to draw; at most 1,000 are drawn\n";
    assert_eq!(drawn(&known::tower(10)), (2, String::new(), told.to_string()));
    let told = "show: standard input: the links are too many to draw; at most 10,000 are drawn\n";
    assert_eq!(drawn(&known::millions()), (2, String::new(), told.to_string()));
    let (status, ..) = said(&["picture", "-"], &file_of(&known::tower(31)));
    assert_eq!(status, 0);
}

#[test]
fn nothing_of_standard_input_is_needed_for_a_file() {
    let mut command = Command::new(env!("CARGO_BIN_EXE_show"));
    command.args(["count", RING]).current_dir(concat!(env!("CARGO_MANIFEST_DIR"), "/../.."));
    let output = command.stdin(Stdio::null()).output().expect("the command ends");
    assert_eq!(output.stdout, b"cues\n5\n");
}
