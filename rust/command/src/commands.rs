//! The commands: how each is written, what it says of itself, and the question that it asks.

use std::ffi::OsString;

use crate::words::shown;

/// A question about a show file.
#[derive(Clone, Debug, PartialEq, Eq)]
pub enum Question {
    /// Whether it is right.
    Check,
    /// How many cues it has.
    Count,
    /// Where a cue is.
    Locate(u32),
    /// The number of an own cue in the copy to which a path leads.
    Number {
        /// The path.
        path: Vec<u32>,
        /// The own cue.
        own: u32,
    },
    /// The cues that follow on from a cue.
    Out(u32),
    /// The cues from which a cue follows on.
    In(u32),
    /// The fewest follow-ons from the first cue to the second.
    Fewest(u32, u32),
    /// The row behind the follow-on from the first cue to the second.
    Row(u32, u32),
    /// The quickest way from the first cue to the second.
    Quickest {
        /// The name of the wait file, or `-`.
        waits: OsString,
        /// The first cue.
        s: u32,
        /// The second cue.
        t: u32,
    },
    /// All links of the unfolded show.
    Links,
    /// Its rows as a file.
    Write,
    /// A picture of the blocks, or of the unfolded show.
    Picture {
        /// Whether it is that of the unfolded show.
        unfolded: bool,
        /// The name of the wait file, or `-`, where waits are drawn too.
        waits: Option<OsString>,
    },
}

impl Question {
    /// The name of the wait file that it needs, or `-`.
    pub fn waits(&self) -> Option<&OsString> {
        match self {
            Question::Quickest { waits, .. } => Some(waits),
            Question::Picture { waits, .. } => waits.as_ref(),
            _ => None,
        }
    }
}

/// A command.
pub struct Command {
    /// Its name.
    pub word: &'static str,
    /// An option that it has beside the one that all have.
    pub option: Option<&'static str>,
    /// The names of the words behind FILE.
    pub takes: &'static [&'static str],
    /// The name of a word that may stand behind those.
    pub may_take: Option<&'static str>,
    /// What it is for, in a line.
    pub says: &'static str,
    /// What it prints.
    pub prints: &'static str,
    /// The question that its words ask, or what is wrong with them.
    pub question: fn(&Behind) -> Result<Question, String>,
}

/// The option of every command: the file is read behind the blocks that come with the desk.
pub const DESK: &str = "--desk";

impl Command {
    /// The options that it has.
    pub fn options(&self) -> impl Iterator<Item = &'static str> {
        [DESK].into_iter().chain(self.option)
    }

    /// How it is written.
    pub fn usage(&self) -> String {
        let options: String = self.options().map(|option| format!(" [{option}]")).collect();
        let takes: String = self.takes.iter().map(|name| format!(" {name}")).collect();
        let may_take = self.may_take.map_or(String::new(), |name| format!(" [{name}]"));
        format!("show {}{options} FILE{takes}{may_take}", self.word)
    }
}

/// All commands, in the order in which `--help` lists them.
pub const COMMANDS: [Command; 12] = [
    Command {
        word: "check",
        option: None,
        takes: &[],
        may_take: None,
        says: "whether the file is right, and how large the show is",
        prints: "`blocks,rows,cues` and the three numbers if the file is right.\n\
            If it is not, the line and the column that are wrong are said, and how.",
        question: |_| Ok(Question::Check),
    },
    Command {
        word: "count",
        option: None,
        takes: &[],
        may_take: None,
        says: "how many cues the show has",
        prints: "`cues` and how many cues the show has.",
        question: |_| Ok(Question::Count),
    },
    Command {
        word: "locate",
        option: None,
        takes: &["N"],
        may_take: None,
        says: "where cue N is",
        prints: "`depth,block,own,path` and, for cue N: how many uses lead to its copy,\n\
            the block of which that is a copy, which of its own cues it is, and the path.\n\
            So 2,0,1,1.2 is own cue 1 of block 0, in use 2 of the copy in use 1 of the show.",
        question: |behind| Ok(Question::Locate(behind.number(0)?)),
    },
    Command {
        word: "number",
        option: None,
        takes: &["PATH", "CUE"],
        may_take: None,
        says: "the number of own cue CUE in the copy PATH",
        prints: "`cue` and the number that own cue CUE has in the copy to which PATH leads.\n\
            PATH is positions of uses, such as 1.2 or 1,2; the empty path, to the show\n\
            itself, is written -",
        question: |behind| Ok(Question::Number { path: behind.path(0)?, own: behind.number(1)? }),
    },
    Command {
        word: "out",
        option: None,
        takes: &["CUE"],
        may_take: None,
        says: "the cues that follow on from CUE",
        prints: "`to` and the cues that follow on from CUE by one link, notes included, rising, one\n\
            in a line.",
        question: |behind| Ok(Question::Out(behind.number(0)?)),
    },
    Command {
        word: "in",
        option: None,
        takes: &["CUE"],
        may_take: None,
        says: "the cues from which CUE follows on",
        prints: "`from` and the cues from which CUE follows on by one link, notes included, rising,\n\
            one in a line.",
        question: |behind| Ok(Question::In(behind.number(0)?)),
    },
    Command {
        word: "fewest",
        option: None,
        takes: &["S", "T"],
        may_take: None,
        says: "the fewest follow-ons from cue S to cue T, or none",
        prints: "`fewest` and the fewest follow-ons that lead from cue S to cue T, or `none`.\n\
            Notes, links with label 255, are not followed.",
        question: |behind| Ok(Question::Fewest(behind.number(0)?, behind.number(1)?)),
    },
    Command {
        word: "quickest",
        option: None,
        takes: &["WAITS", "S", "T"],
        may_take: None,
        says: "the quickest way from cue S to cue T, or none",
        prints: "`quickest,time` and how long the quickest way from cue S to cue T takes, where each link\n\
            waits as long as WAITS says for its label: in tenths of a second, and as minutes and\n\
            seconds, from an hour on with the hours before them. So 40,0:04.0 is four seconds. Where\n\
            no chain leads from S to T it is `none,-`. Notes, links with label 255, are not followed.",
        question: |behind| {
            let (s, t) = (behind.number(1)?, behind.number(2)?);
            Ok(Question::Quickest { waits: behind.words[0].clone(), s, t })
        },
    },
    Command {
        word: "row",
        option: None,
        takes: &["S", "T"],
        may_take: None,
        says: "the link row behind the follow-on from cue S to cue T",
        prints: "`row,line,depth,path` and the names of the columns; then, for a link row that joins\n\
            cue S to cue T: its number, its line in the file, how many uses lead to the copy in\n\
            which it joins them and the path to that copy, and the row itself. Of several rows it\n\
            is the one with the shortest path, then with the path that is smaller at the first step\n\
            where they differ, then the smaller row. A change of it changes all copies of its block.\n\
            A row that comes with the desk is in no line of the file: its line is -",
        question: |behind| Ok(Question::Row(behind.number(0)?, behind.number(1)?)),
    },
    Command {
        word: "links",
        option: None,
        takes: &[],
        may_take: None,
        says: "all links of the unfolded show",
        prints: "`from,to,label` and all links of the unfolded show, rising, each once; for a\n\
            show of over 1,000 cues `cues` and how many it has. So does the unfolding program.",
        question: |_| Ok(Question::Links),
    },
    Command {
        word: "write",
        option: None,
        takes: &[],
        may_take: None,
        says: "the file as the library writes it",
        prints: "the file that the library writes for the rows of FILE: values have no zeros in front.\n\
            With --desk that is a whole file, in which the desk's rows stand before its own; it is\n\
            read without --desk, to the same rows.",
        question: |_| Ok(Question::Write),
    },
    Command {
        word: "picture",
        option: Some("--unfolded"),
        takes: &[],
        may_take: Some("WAITS"),
        says: "the blocks, or the unfolded show, as text for Graphviz",
        prints: "text from which `dot -Tsvg` of Graphviz draws the blocks of the show or,\n\
            with --unfolded, its copies, cues and links. Notes, links with label 255, are dashed.\n\
            With WAITS each other link has the wait of its label behind it, in seconds.\n\
            Over 1,000 cues or 10,000 links are not drawn unfolded: the exit status is 2, since that\n\
            is no refusal of the library.",
        question: |behind| {
            let waits = behind.words.first().map(|word| (*word).clone());
            Ok(Question::Picture { unfolded: behind.option, waits })
        },
    },
];

/// The words behind FILE, as many as the command takes or may take, and whether its option is there.
pub struct Behind<'a> {
    /// The words.
    pub words: &'a [&'a OsString],
    /// Whether the option is there.
    pub option: bool,
}

impl Behind<'_> {
    fn number(&self, place: usize) -> Result<u32, String> {
        number(&shown(self.words[place]))
    }

    /// Steps with points or commas between them, or `-`.
    fn path(&self, place: usize) -> Result<Vec<u32>, String> {
        match shown(self.words[place]).as_str() {
            "-" => Ok(Vec::new()),
            path if path.split(['.', ',']).any(str::is_empty) => {
                Err(format!("PATH '{path}' has an empty step; the empty path is -"))
            }
            path => path.split(['.', ',']).map(number).collect(),
        }
    }
}

/// A number in digits, no larger than the library takes.
fn number(word: &str) -> Result<u32, String> {
    if word.is_empty() || !word.bytes().all(|byte| byte.is_ascii_digit()) {
        return Err(format!("'{word}' is no number"));
    }
    word.parse().map_err(|_| format!("{word} is too large; a number here is at most {}", u32::MAX))
}
