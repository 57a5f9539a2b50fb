//! What `--help` says.

use crate::commands::{Command, COMMANDS};

const HEAD: &str = "\
show: questions about a show file, answered by the proved library

usage: show COMMAND [--desk] FILE ...
       show COMMAND --help
       show --help       also -h, or help
       show --version    also -V

";

const FOOT: &str = "
FILE      a show file; - is standard input. A name that begins with a dash is written with ./ before it.
WAITS     a wait file, or -: the line `label,wait`, then a line for each label that waits, with the label,
          1 to 254, and its wait, 0 to 6000 tenths of a second. Labels rise; one without a line waits 0.
--desk    FILE is read behind the sixteen blocks that come with the desk, 0 to 15: its first row opens
          block 16, and it can use them. Rows and blocks are counted with them; lines are those of FILE.
N, CUE, S, T
          a number from 0 to 4294967295. Cues of the show are numbered from 1; CUE of `number` is an own
          cue of its block, from 1.
PATH      the uses that lead from the show down to a copy, each by its position in its block, with a
          point or a comma between two: 1.2 or 1,2. The empty path, to the show itself, is -

An answer goes to standard output as lines of values with commas between them, below a line with their
names; so the unfolding program prints links. A path is one value, its steps joined by points. Only
`write` and `picture` print something else, a show file and text for Graphviz. Words go to standard error.

exit status  0  an answer; also `none`, and an answer that nobody wanted to read to its end
             1  a refusal of the library: its number, line and column, and what is wrong there
             2  wrong use, a file that cannot be read or written, or a picture too large to draw
";

/// The usage line where no command is meant.
pub fn usage() -> String {
    let words = COMMANDS.map(|command| command.word);
    format!("show COMMAND FILE ..., or show --help; COMMAND is {}", words.join(", "))
}

/// The help for all commands.
pub fn all() -> String {
    let width = COMMANDS.iter().map(|command| command.usage().len()).max().unwrap_or(0);
    let line = |command: &Command| format!("  {:width$}  {}\n", command.usage(), command.says);
    let lines: String = COMMANDS.iter().map(line).collect();
    format!("{HEAD}{lines}{FOOT}")
}

/// The help for one command.
pub fn of(command: &Command) -> String {
    let rest =
        "`show --help` says what FILE, WAITS, --desk and the other words are, and what an exit status means.";
    format!("usage: {}\n\nprints {}\n\n{rest}\n", command.usage(), command.prints)
}
