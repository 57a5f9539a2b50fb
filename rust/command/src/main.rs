//! The command `show`: questions about a show file, for testers and programmers.

use std::process::ExitCode;

fn main() -> ExitCode {
    show_command::run(std::env::args_os().skip(1))
}
