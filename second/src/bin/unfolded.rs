//! Compares the unfolding program with the naive tool on named, changed and random files.
//!
//! `unfolded PROGRAM [COUNT]`

use std::io::Write;
use std::process::{Command, ExitCode, Stdio};
use std::thread;

use second::gen::prng::Prng;
use second::gen::{damage, desk, edges, known, notes, padding, random};
use second::limits::BYTES;
use second::naive::desk::table;
use second::naive::file::print;
use second::naive::print::printed;

fn file_of(rows: &[u32]) -> Vec<u8> {
    print(rows.as_chunks().0)
}

/// What the program prints for a file. A program that stops reading early is no failure.
fn ask(program: &str, file: Vec<u8>) -> std::io::Result<Vec<u8>> {
    let mut child = Command::new(program).stdin(Stdio::piped()).stdout(Stdio::piped()).spawn()?;
    let mut stdin = child.stdin.take().expect("it was piped");
    let writer = thread::spawn(move || {
        let _ = stdin.write_all(&file);
    });
    let output = child.wait_with_output()?;
    writer.join().expect("the writer ends");
    if !output.status.success() {
        return Err(std::io::Error::other(output.status.to_string()));
    }
    Ok(output.stdout)
}

/// Files whose answer is known to be of interest.
fn named() -> Vec<(String, Vec<u8>)> {
    let mut files = Vec::new();
    let mut shows = vec![
        ("ring", known::ring()),
        ("ring with a note", known::ring_back(2, notes::NOTE)),
        ("ring of notes", notes::alone(known::ring())),
        ("notes beside links", notes::beside()),
        ("tower of 31", known::tower(31)),
        ("tower of 32", known::tower(32)),
        ("knot", known::knot()),
        ("long ring", known::long_ring(30)),
        ("1,000 cues", known::labelled(1000)),
        ("1,001 cues", known::labelled(1001)),
        ("millions of triples", known::millions()),
        ("rows of the desk before a show", [table().concat(), desk::desk_run()].concat()),
        ("a file for the desk", desk::desk_run()),
    ];
    shows.extend(edges::bases().into_iter().map(|rows| ("base", rows)));
    for (name, rows) in shows {
        files.push((name.to_string(), file_of(&rows)));
    }
    let ring = file_of(&known::ring());
    let near = edges::near_files(&ring).into_iter().step_by(7);
    files.extend(near.map(|file| ("near the ring".to_string(), file)));
    files.extend(padded());
    for length in [0, 1, 65_535, 65_536, 65_537, 10_000_000] {
        files.push((format!("{length} zeros"), vec![b'0'; length]));
    }
    files
}

/// Padded files, up to the longest length and a byte more, and some with one value changed.
fn padded() -> Vec<(String, Vec<u8>)> {
    let ring = padding::to_digits(&file_of(&known::ring()), padding::DIGITS);
    let mut files = vec![("padded ring".to_string(), ring.clone())];
    let near = edges::near_values(&ring).into_iter().step_by(7);
    files.extend(near.map(|file| ("near the padded ring".to_string(), file)));
    let wide = file_of(&known::wide(1024));
    for length in [BYTES, BYTES + 1] {
        files.push((format!("padded to {length} bytes"), padding::to_length(&wide, length)));
    }
    files
}

fn some(prng: &mut Prng) -> Vec<u8> {
    let shape = if prng.one_in(8) { &random::LARGER } else { prng.pick(&random::SHAPES) };
    let mut rows = random::show(prng, shape);
    if prng.one_in(8) {
        damage::rows(prng, &mut rows);
    }
    let mut file = file_of(&rows);
    if prng.one_in(4) {
        file = padding::some_way(prng, &file);
    }
    if prng.one_in(8) {
        damage::file(prng, &mut file);
    }
    file
}

fn main() -> ExitCode {
    let mut words = std::env::args().skip(1);
    let Some(program) = words.next() else {
        eprintln!("usage: unfolded PROGRAM [COUNT]");
        return ExitCode::FAILURE;
    };
    let count: u64 = words.next().and_then(|word| word.parse().ok()).unwrap_or(1000);
    let mut files = named();
    for case in 0..count {
        files.push((format!("random {case}"), some(&mut Prng::new(7, case))));
    }
    let (mut passed, mut failed) = (0, 0);
    for (name, file) in files {
        let expected = printed(&file);
        match ask(&program, file) {
            Ok(text) if text == expected.as_bytes() => passed += 1,
            Ok(text) => {
                println!("FAILED: {name}: {} bytes, not {}", text.len(), expected.len());
                failed += 1;
            }
            Err(error) => {
                println!("FAILED: {name}: {error}");
                failed += 1;
            }
        }
    }
    println!("{passed} passed, {failed} failed");
    if failed == 0 {
        ExitCode::SUCCESS
    } else {
        ExitCode::FAILURE
    }
}
