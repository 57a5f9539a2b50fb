//! The words of the command line.

use std::ffi::{OsStr, OsString};

use crate::commands::{Behind, Command, Question, COMMANDS, DESK};
use crate::help;
use crate::input::STANDARD;
use crate::problem::Problem;
use crate::way::Way;
use crate::words::shown;

/// What a command line asks for.
#[derive(Debug, PartialEq, Eq)]
pub enum Asked {
    /// A text of the command itself.
    Text(String),
    /// A question about a file.
    Of {
        /// The name of the file, or `-`.
        file: OsString,
        /// How it is read.
        way: Way,
        /// The question.
        question: Question,
    },
}

/// What the words of a command line ask for, or what is wrong with them.
pub fn parse(words: impl Iterator<Item = OsString>) -> Result<Asked, Problem> {
    let words: Vec<OsString> = words.collect();
    let Some((first, rest)) = words.split_first() else {
        return Err(wrong("a command is missing".into(), help::usage()));
    };
    if first == "help" || is_help(first) {
        return helped(rest).map(Asked::Text);
    }
    if first == "--version" || first == "-V" {
        none_left(rest, "show --version")?;
        return Ok(Asked::Text(format!("show {}\n", show::VERSION)));
    }
    asked(command(first)?, rest)
}

/// The help for the command that is named, or for all.
fn helped(words: &[OsString]) -> Result<String, Problem> {
    let Some((first, rest)) = words.split_first() else { return Ok(help::all()) };
    none_left(rest, "show help [COMMAND]")?;
    Ok(help::of(command(first)?))
}

/// The command of this name.
fn command(word: &OsStr) -> Result<&'static Command, Problem> {
    let found = COMMANDS.iter().find(|command| word == command.word);
    found.ok_or_else(|| wrong(unknown(word), help::usage()))
}

/// What the words behind a command ask for.
fn asked(command: &Command, words: &[OsString]) -> Result<Asked, Problem> {
    let (options, rest): (Vec<&OsString>, Vec<&OsString>) =
        words.iter().partition(|word| is_option(word));
    if options.iter().any(|word| is_help(word)) {
        return Ok(Asked::Text(help::of(command)));
    }
    question(command, &options, &rest)
        .map_err(|said| wrong(format!("{}: {said}", command.word), command.usage()))
}

/// The question that a command asks with these options and words.
fn question(
    command: &Command,
    options: &[&OsString],
    words: &[&OsString],
) -> Result<Asked, String> {
    let known = |word: &OsStr| command.options().any(|option| word == option);
    if let Some(word) = options.iter().find(|word| !known(word)) {
        return Err(unknown(word));
    }
    let (file, rest) = words.split_first().ok_or("FILE is missing")?;
    if let Some(name) = command.takes.get(rest.len()) {
        return Err(format!("{name} is missing"));
    }
    let most = command.takes.len() + usize::from(command.may_take.is_some());
    if let Some(word) = rest.get(most) {
        return Err(too_many(word));
    }
    let has = |option: &str| options.iter().any(|word| *word == option);
    let behind = Behind { words: rest, option: command.option.is_some_and(has) };
    let way = if has(DESK) { Way::Desk } else { Way::Alone };
    let question = (command.question)(&behind)?;
    if *file == STANDARD && question.waits().is_some_and(|waits| waits == STANDARD) {
        return Err("FILE and WAITS are both -; only one of them can be standard input".into());
    }
    Ok(Asked::Of { file: file.into(), way, question })
}

fn is_help(word: &OsStr) -> bool {
    word == "--help" || word == "-h"
}

/// Words that begin with two dashes are options; a cue number with a dash is a wrong number.
fn is_option(word: &OsStr) -> bool {
    is_help(word) || word.as_encoded_bytes().starts_with(b"--")
}

fn none_left(words: &[OsString], usage: &str) -> Result<(), Problem> {
    match words.first() {
        None => Ok(()),
        Some(word) => Err(wrong(too_many(word), usage.into())),
    }
}

fn wrong(said: String, usage: String) -> Problem {
    Problem::Use { said, usage }
}

fn unknown(word: &OsStr) -> String {
    format!("unknown word '{}'", shown(word))
}

fn too_many(word: &OsStr) -> String {
    format!("'{}' is one word too many", shown(word))
}
