//! Every cause of a refusal, with the sentence for it.

use std::fmt::{Display, Formatter};

use super::Column;
use crate::words::{Grouped, Many};

/// Each cause: the number of the refusal, a name, what its sentence says, and the sentence.
macro_rules! causes {
    ($($number:literal $name:ident($($field:ident: $type:ty),*) $text:literal)*) => {
        /// Why a file or a question is refused. A value that is wrong is said first.
        #[derive(Clone, Debug, PartialEq, Eq)]
        #[allow(missing_docs)]
        pub enum Cause {
            $(#[doc = $text] $name { $($field: $type),* },)*
        }

        impl Cause {
            /// The names of all causes.
            pub const NAMES: &[&str] = &[$(stringify!($name)),*];

            /// The name of the cause.
            pub fn name(&self) -> &'static str {
                match self {
                    $(Cause::$name { .. } => stringify!($name),)*
                }
            }

            /// The number of the refusal; 0 where this is not a cause of one refusal alone. A cause of refusal 2 or
            /// 3 in a wait file is one of refusal 15.
            pub fn number(&self) -> u32 {
                match self {
                    $(Cause::$name { .. } => $number,)*
                }
            }
        }

        impl Display for Cause {
            fn fmt(&self, f: &mut Formatter) -> std::fmt::Result {
                match self {
                    $(Cause::$name { $($field),* } => write!(f, $text),)*
                }
            }
        }
    };
}

causes! {
    0 Unexplained(words: &'static str) "{words}"

    1 TooLong(bytes: Grouped) "the file has {bytes} bytes; a show file has at most 65,536"
    1 TooLongToRead() "there are more than 65,536 bytes, the most that a show file has"

    2 Empty(names: &'static str) "the file is empty; its first line must be {names}"
    2 ByteOrderMark(file: &'static str) "a byte order mark stands before the names; {file} has none"
    2 TwoBytes(file: &'static str) "each character has two bytes (UTF-16); in {file} it has one"
    2 NamesBlank(names: &'static str) "the line is empty; it must be {names}"
    2 NamesReturn() "a carriage return stands behind the names; a line feed alone ends a line"
    2 NamesUnended() "the line feed behind the names is missing"
    2 NamesCut(names: &'static str) "the file ends inside the names, which are {names}"
    2 NamesMissing(names: &'static str) "values stand in the place of the names, which are {names}"
    2 NamesSemicolons() "a semicolon stands between names; it must be a comma"
    2 NamesTabs() "a tab stands between names; it must be a comma"
    2 NamesCapitals() "the names have capital letters; all of them are small"
    2 NamesSpaces() "the names have spaces; there is none between them or around them"
    2 NamesQuotes() "the names have quote marks; they are written without any"
    2 NamesComma() "a comma stands behind the last name; the line ends without one"
    2 NamesCount(found: Many, many: &'static str, names: &'static str) "the line has {found}; the {many} are {names}"
    2 NameWrong(name: String, names: &'static str) "'{name}' stands here; the names are {names}"

    3 Blank(is: &'static str) "the line is empty; each line behind the names is {is}"
    3 NamesAgain() "the names stand here again; only the first line has them"
    3 Space() "a space stands in this value; a value is digits alone"
    3 Tab() "a tab stands in this value; a value is digits alone, with a comma behind it"
    3 Sign(sign: char) "the sign {sign} stands in this value; a value is 0 to 65,535, without a sign"
    3 Letter(letter: char) "the letter {letter} stands in this value; a value is digits alone"
    3 Point() "a point stands in this value; a value is a whole number"
    3 Quote() "a quote mark stands in this value; a value is digits alone"
    3 Semicolon() "a semicolon stands here; a comma stands between two values"
    3 Return() "a carriage return stands at the end of the line; a line feed alone ends it"
    3 ReturnInside() "a carriage return stands in this value; a value is digits alone"
    3 Character(character: char) "the character {character} stands in this value; a value is digits alone"
    3 Byte(byte: u8) "the byte {byte:02X} (hexadecimal) stands in this value; a value is digits alone"
    3 NoValue() "there is no value here; a value is one to five digits"
    3 Digits(digits: usize) "{digits} digits; a value has at most five, zeros in front counted"
    3 Over(value: u32) "{value}; a value is 0 to 65,535"
    3 TooFew(values: Many, has: &'static str) "the line has {values}; {has}"
    3 TooMany(values: Many, has: &'static str) "the line has {values}; {has}"
    3 CommaBehind(line: &'static str) "a comma stands behind the last value; a {line} ends without one"
    3 Cut(values: Many, line: &'static str, has: &'static str) "the file ends behind {values} of this {line}; {has} and a line feed"
    3 Unended() "the line feed is missing; one ends every line, also the last"

    4 NoRows() "there are no rows behind the names; a show has 1 to 1,024"
    4 TooManyRows(rows: Grouped) "there are {rows} rows; a show has 1 to 1,024"
    4 DeskNoRows() "there are no rows behind the names; a file that is read with the desk's blocks has 1 to 856 of its own"
    4 DeskTooManyRows(rows: Grouped)
        "there are {rows} rows; a file that is read with the desk's blocks has 1 to 856, with the desk's 168 that is 1,024"

    5 Kind(kind: u32) "{kind}; a kind is 0 to 2: an opening, a link or a use"
    5 FirstKind(kind: u32) "{kind}; the first row opens block 0, so this must be 0"
    5 FirstBlock(block: u32) "{block}; the first block that is opened is block 0, so this must be 0"
    5 MeantForDesk(block: u32)
        "{block}; the first block that is opened is block 0, so this must be 0, unless the file is for the desk: then say --desk"
    5 DeskFirstKind(kind: u32)
        "{kind}; the first row of a file that is read with the desk's blocks opens block 16, so this must be 0"
    5 DeskFirstBlock(block: u32)
        "{block}; the desk's blocks are 0 to 15, and the first row of the file opens the next one, so this must be 16"
    5 Jumps(block: u32, next: usize) "{block}; blocks are opened without a gap, so this must be {next}"
    5 OpenedAgain(block: u32, next: usize) "{block}; that block is opened already, so this must be {next}"
    5 TooManyBlocks() "this opens a 129th block; a show has at most 128"
    5 DeskTooManyBlocks() "this opens a 129th block, the desk's sixteen counted; a show has at most 128"
    5 NotOpened(block: u32, open: usize)
        "{block}; that block is not opened: its opening is missing before this line, or this must be {open}"
    5 Left(block: u32, open: usize) "{block}; that block ended where block {open} was opened, so this must be {open}"
    5 LinkBehindUse() "a link stands behind a use; in a block all links come before the uses"

    6 Joins(joins: u32) "{joins}; a block has 0 to 8 joins"
    6 Own(own: u32) "{own}; a block has 0 to 255 own cues"
    6 Label(label: u32) "{label}; a link's label is 1 to 255"
    6 UseInFirst() "2; block 0 has no earlier block to use"
    6 UseOf(label: u32, block: u32, last: u32) "{label}; block {block} can use earlier blocks alone, 0 to {last}"
    6 NoCues(cue: u32, block: u32) "{cue}; block {block} has neither own cues nor joins, so no cue can be named"
    6 Cue(cue: u32, block: u32, cues: u32, own: Many, joins: Many)
        "{cue}; the cues of block {block} are 1 to {cues}: {own} and {joins}"
    6 UseCue(cue: u32, used: u32, joins: Many, last: Column, block: u32, cues: u32)
        "{cue}; block {used} has {joins}, so columns up to {last} name cues of block {block}, 1 to {cues}"
    6 IdleInOpening(value: u32) "{value}; b to h are idle in an opening, so this must be 0"
    6 IdleInLink(value: u32) "{value}; c to h are idle in a link, so this must be 0"
    6 IdleInUse(value: u32, used: u32, joins: Many, first: Column)
        "{value}; block {used} has {joins}, so columns from {first} on are idle here and this must be 0"

    7 LinkTwice(cue: u32) "cue {cue} stands in a too; a link is between two cues"
    7 UseTwice(cue: u32, first: Column) "cue {cue} stands in {first} too; no cue takes two joins of a copy"

    8 SameLink() "the same link stands in the line before; links rise by a, b and label"
    8 LinkFalls(value: u32, before: u32) "{value}; links rise by a, b and label, and the line before has {before} here"
    8 UseFalls(value: u32, before: u32) "{value}; uses never fall by a to h and label, and the line before has {before} here"

    9 ShowJoins(joins: u32) "{joins}; the last block is the show and has no joins, so this must be 0"
    9 ShowOwn() "0; the last block is the show and has 1 to 255 own cues"
    9 NoJoins() "0; a block before the last has 1 to 8 joins"

    10 Total(block: usize, total: Grouped) "block {block} stands for {total} cues; at most 2,147,483,647 are allowed"

    12 NoCue(cue: u32, count: u32) "cue {cue}; the show has cues 1 to {count}"

    13 LongPath(steps: usize) "the path has {steps} steps; the longest has 127"
    13 NoUses(place: usize, step: u32, block: usize) "step {place} of the path is {step}; block {block} has no uses"
    13 NoUse(place: usize, step: u32, block: usize, uses: usize)
        "step {place} of the path is {step}; block {block} has uses 1 to {uses}"
    13 NoOwn(own: u32, block: usize) "own cue {own}; block {block} has no own cues"
    13 NotOwn(own: u32, block: usize, most: u32) "own cue {own}; block {block} has own cues 1 to {most}"

    14 Loop(cue: u32) "no link leads from cue {cue} to itself; a link is between two cues"
    14 LinkBack(s: u32, t: u32) "no link leads from cue {s} to cue {t}; one leads from {t} to {s}"
    14 NoLink(s: u32, t: u32) "no link leads from cue {s} to cue {t}; `show out` lists what follows on from {s}"

    16 WaitLabel(label: u32) "{label}; a label that waits is 1 to 254"
    16 WaitOver(wait: u32) "{wait}; a wait is 0 to 6,000 tenths of a second"

    17 SameLabel(label: u32) "{label}; the line before has this label too, and labels rise from line to line"
    17 LabelFalls(label: u32, before: u32) "{label}; labels rise from line to line, and the line before has {before} here"
}
