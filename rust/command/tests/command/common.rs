//! What the tests share: files of shows, and the command run in a process and without one.

use std::io::Write;
use std::process::{Child, Command, Output, Stdio};
use std::thread;

use second::naive::file::print;
use show::{Refused, Rows, ROWS_LEN, WORK_LEN};
use show_command::ask;
use show_command::commands::Question;
use show_command::input::Input;
use show_command::problem::Problem;
use show_command::way::Way;

/// The line of names.
pub const NAMES: &str = "block,kind,label,a,b,c,d,e,f,g,h\n";

/// Rows as a file.
pub fn file_of(rows: &[u32]) -> Vec<u8> {
    print(rows.as_chunks().0)
}

/// The file of the ring.
pub fn ring() -> Vec<u8> {
    file_of(&second::gen::known::ring())
}

/// The file of the ring with a note for its link back.
pub fn noted_ring() -> Vec<u8> {
    file_of(&second::gen::known::ring_back(2, second::gen::notes::NOTE))
}

/// The file of the sample show on the desk's blocks.
pub fn desk_run() -> Vec<u8> {
    file_of(&second::gen::desk::desk_run())
}

/// The library's refusal of a wait file.
pub fn waits_refusal(file: &[u8]) -> Option<Refused> {
    let ring = second::gen::known::ring();
    Rows::new(&ring).quickest(1, 2, file, &mut [0; WORK_LEN]).err()
}

/// A file of this name, with these bytes, for the command to read.
pub fn written(name: &str, bytes: &[u8]) -> String {
    let path = format!("{}/{name}", env!("CARGO_TARGET_TMPDIR"));
    std::fs::write(&path, bytes).expect("the folder can be written");
    path
}

/// The library's refusal of a file that is read so.
pub fn refusal(way: Way, file: &[u8]) -> Option<Refused> {
    way.read(file, &mut [0; ROWS_LEN]).err()
}

/// What the command prints for a question about a file that is read so, asked in this process.
pub fn asked(way: Way, file: &[u8], question: &Question) -> Result<String, Problem> {
    let name = || "show.csv".to_string();
    let input = Input { name: name(), title: name(), bytes: file.to_vec(), size: None };
    let mut out = Vec::new();
    ask::of_input(&input, way, question, &mut out)?;
    Ok(String::from_utf8(out).expect("the command prints text"))
}

/// The command with these words, all of it piped.
pub fn started(words: &[&str]) -> Child {
    let mut command = Command::new(env!("CARGO_BIN_EXE_show"));
    command.args(words).current_dir(concat!(env!("CARGO_MANIFEST_DIR"), "/../.."));
    command.stdin(Stdio::piped()).stdout(Stdio::piped()).stderr(Stdio::piped());
    command.spawn().expect("the command starts")
}

/// What the command does with these words and this standard input.
pub fn ran(words: &[&str], input: &[u8]) -> Output {
    let mut child = started(words);
    let (mut stdin, input) = (child.stdin.take().expect("it is piped"), input.to_vec());
    // The command may end before it has read everything.
    let writer = thread::spawn(move || stdin.write_all(&input).is_ok());
    let output = child.wait_with_output().expect("the command ends");
    writer.join().expect("the writer ends");
    output
}

/// Exit status, standard output and standard error of the command.
pub fn said(words: &[&str], input: &[u8]) -> (i32, String, String) {
    let Output { status, stdout, stderr } = ran(words, input);
    let text = |bytes| String::from_utf8(bytes).expect("the command prints text");
    (status.code().expect("the command is not killed"), text(stdout), text(stderr))
}
