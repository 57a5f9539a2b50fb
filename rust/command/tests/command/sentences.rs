//! Broken files, each with what is said of it, to the letter. Every cause is among them.

use std::collections::BTreeSet;

use second::gen::edges::many_blocks;
use second::gen::{desk, known};
use show::{Place, Refused, Rows, PATH_LEN, ROWS_LEN};
use show_command::blocks::rows_of;
use show_command::explain::{self, Cause, Explained};
use show_command::way::Way;

use crate::common::{file_of, refusal, ring, waits_refusal, NAMES};

/// First lines, and what is said of them.
const FIRST_LINES: &[(&str, &str)] = &[
    ("", "line 1: the file is empty; its first line must be block,kind,label,a,b,c,d,e,f,g,h (refusal 2)"),
    ("\u{FEFF}block,kind,label,a,b,c,d,e,f,g,h\n", "line 1: a byte order mark stands before the names; a show file has none (refusal 2)"),
    ("\n", "line 1: the line is empty; it must be block,kind,label,a,b,c,d,e,f,g,h (refusal 2)"),
    ("\r\nblock,kind,label,a,b,c,d,e,f,g,h\r\n", "line 1: the line is empty; it must be block,kind,label,a,b,c,d,e,f,g,h (refusal 2)"),
    ("block,kind,label,a,b,c,d,e,f,g,h\r\n", "line 1: a carriage return stands behind the names; a line feed alone ends a line (refusal 2)"),
    ("block,kind,label,a,b,c,d,e,f,g,h\r0,0,0,1,0,0,0,0,0,0,0\r", "line 1: a carriage return stands behind the names; a line feed alone ends a line (refusal 2)"),
    ("block,kind,label,a,b,c,d,e,f,g,h", "line 1: the line feed behind the names is missing (refusal 2)"),
    ("block,kind,lab", "line 1: the file ends inside the names, which are block,kind,label,a,b,c,d,e,f,g,h (refusal 2)"),
    ("0,0,0,1,0,0,0,0,0,0,0\n", "line 1: values stand in the place of the names, which are block,kind,label,a,b,c,d,e,f,g,h (refusal 2)"),
    ("0;0;0;1;0;0;0;0;0;0;0\r\n", "line 1: values stand in the place of the names, which are block,kind,label,a,b,c,d,e,f,g,h (refusal 2)"),
    ("block;kind;label;a;b;c;d;e;f;g;h\r\n", "line 1: a semicolon stands between names; it must be a comma (refusal 2)"),
    ("block\tkind\tlabel\ta\tb\tc\td\te\tf\tg\th\n", "line 1: a tab stands between names; it must be a comma (refusal 2)"),
    ("Block,Kind,Label,A,B,C,D,E,F,G,H\n", "line 1: the names have capital letters; all of them are small (refusal 2)"),
    ("block, kind, label, a, b, c, d, e, f, g, h\n", "line 1: the names have spaces; there is none between them or around them (refusal 2)"),
    ("\"block\",\"kind\",\"label\",\"a\",\"b\",\"c\",\"d\",\"e\",\"f\",\"g\",\"h\"\n", "line 1: the names have quote marks; they are written without any (refusal 2)"),
    ("block,kind,label,a,b,c,d,e,f,g\n", "line 1: the line has 10 names; the eleven are block,kind,label,a,b,c,d,e,f,g,h (refusal 2)"),
    ("block,kind,label,a,b,c,d,e,f,g,h,\r\n", "line 1: a comma stands behind the last name; the line ends without one (refusal 2)"),
    ("b\0l\0o\0c\0k\0,\0", "line 1: each character has two bytes (UTF-16); in a show file it has one (refusal 2)"),
    ("\0b\0l\0o\0c\0k\0,", "line 1: each character has two bytes (UTF-16); in a show file it has one (refusal 2)"),
    ("shows\n", "line 1: the line has 1 name; the eleven are block,kind,label,a,b,c,d,e,f,g,h (refusal 2)"),
    ("block,kind,lable,a,b,c,d,e,f,g,h\n", "line 1, label: 'lable' stands here; the names are block,kind,label,a,b,c,d,e,f,g,h (refusal 2)"),
    ("block,kind,label,a,b,c,d,e,f,g,h\u{7}                  \n", "line 1, h: 'h\\x07              ...' stands here; the names are block,kind,label,a,b,c,d,e,f,g,h (refusal 2)"),
];

/// Lines behind the names, and what is said of the second of them or of the whole file.
const LINES: &[(&str, &str)] = &[
    ("0,0,2,1,0,0,0,0,0,0,0\n\n", "line 3: the line is empty; each line behind the names is a row (refusal 3)"),
    ("block,kind,label,a,b,c,d,e,f,g,h\n", "line 2: the names stand here again; only the first line has them (refusal 3)"),
    ("0,0,2, 1,0,0,0,0,0,0,0\n", "line 2, a: a space stands in this value; a value is digits alone (refusal 3)"),
    ("0,0,2,1 ,0,0,0,0,0,0,0\n", "line 2, a: a space stands in this value; a value is digits alone (refusal 3)"),
    ("0\t0\t2\t1\t0\t0\t0\t0\t0\t0\t0\n", "line 2, block: a tab stands in this value; a value is digits alone, with a comma behind it (refusal 3)"),
    ("0,0,-2,1,0,0,0,0,0,0,0\n", "line 2, label: the sign - stands in this value; a value is 0 to 65,535, without a sign (refusal 3)"),
    ("0,x,2,1,0,0,0,0,0,0,0\n", "line 2, kind: the letter x stands in this value; a value is digits alone (refusal 3)"),
    ("0,0,2,1.0,0,0,0,0,0,0,0\n", "line 2, a: a point stands in this value; a value is a whole number (refusal 3)"),
    ("\"0\",\"0\",\"2\"\n", "line 2, block: a quote mark stands in this value; a value is digits alone (refusal 3)"),
    ("0;0;2;1;0;0;0;0;0;0;0\n", "line 2, block: a semicolon stands here; a comma stands between two values (refusal 3)"),
    ("0,0,2,1,0,0,0,0,0,0,0\r\n", "line 2: a carriage return stands at the end of the line; a line feed alone ends it (refusal 3)"),
    ("\r\n", "line 2: a carriage return stands at the end of the line; a line feed alone ends it (refusal 3)"),
    ("0,0,2,1,0,0,0\r,0,0,0,0\n", "line 2, d: a carriage return stands in this value; a value is digits alone (refusal 3)"),
    ("0,0,2,1,0,0,0,0,0,0,0/\n", "line 2, h: the character / stands in this value; a value is digits alone (refusal 3)"),
    ("0,0,2,1,0,0,0,\0,0,0,0\n", "line 2, e: the byte 00 (hexadecimal) stands in this value; a value is digits alone (refusal 3)"),
    ("0,0,2,1,\u{e9},0,0,0,0,0,0\n", "line 2, b: the byte C3 (hexadecimal) stands in this value; a value is digits alone (refusal 3)"),
    ("0,0,2,,0,0,0,0,0,0,0\n", "line 2, a: there is no value here; a value is one to five digits (refusal 3)"),
    ("0,0,2,1,0,0,0,0,0,0,\n", "line 2, h: there is no value here; a value is one to five digits (refusal 3)"),
    ("000000,0,2,1,0,0,0,0,0,0,0\n", "line 2, block: 6 digits; a value has at most five, zeros in front counted (refusal 3)"),
    ("0,0,65536,1,0,0,0,0,0,0,0\n", "line 2, label: 65536; a value is 0 to 65,535 (refusal 3)"),
    ("0,0,2,1,0,0,0,0,0,0\n", "line 2: the line has 10 values; a row has eleven (refusal 3)"),
    ("0\n", "line 2: the line has 1 value; a row has eleven (refusal 3)"),
    ("0,0,2,1,0,0,0,0,0,0,0,0\n", "line 2: the line has 12 values; a row has eleven (refusal 3)"),
    ("0,0,2,1,0,0,0,0,0,0,0,0,\n", "line 2: the line has 12 values; a row has eleven (refusal 3)"),
    ("0,0,2,1,0,0,0,0,0,0,0,\n", "line 2: a comma stands behind the last value; a row ends without one (refusal 3)"),
    ("0,0,2,1", "line 2: the file ends behind 4 values of this row; a row has eleven and a line feed (refusal 3)"),
    ("0,", "line 2: the file ends behind 1 value of this row; a row has eleven and a line feed (refusal 3)"),
    ("0,0,2,1,0,0,0,0,0,0,0", "line 2: the line feed is missing; one ends every line, also the last (refusal 3)"),
    ("", "there are no rows behind the names; a show has 1 to 1,024 (refusal 4)"),
    ("0,3,0,1,0,0,0,0,0,0,0\n", "line 2, kind: 3; a kind is 0 to 2: an opening, a link or a use (refusal 5)"),
    ("0,1,1,1,2,0,0,0,0,0,0\n", "line 2, kind: 1; the first row opens block 0, so this must be 0 (refusal 5)"),
    ("1,0,0,1,0,0,0,0,0,0,0\n", "line 2, block: 1; the first block that is opened is block 0, so this must be 0 (refusal 5)"),
    ("16,0,0,1,0,0,0,0,0,0,0\n", "line 2, block: 16; the first block that is opened is block 0, so this must be 0, unless the file is for the desk: then say --desk (refusal 5)"),
    ("0,0,1,1,0,0,0,0,0,0,0\n2,0,0,1,0,0,0,0,0,0,0\n", "line 3, block: 2; blocks are opened without a gap, so this must be 1 (refusal 5)"),
    ("0,0,1,1,0,0,0,0,0,0,0\n0,0,0,1,0,0,0,0,0,0,0\n", "line 3, block: 0; that block is opened already, so this must be 1 (refusal 5)"),
    ("0,0,1,1,0,0,0,0,0,0,0\n1,1,1,1,2,0,0,0,0,0,0\n", "line 3, block: 1; that block is not opened: its opening is missing before this line, or this must be 0 (refusal 5)"),
    ("0,0,1,1,0,0,0,0,0,0,0\n1,0,0,1,0,0,0,0,0,0,0\n0,2,0,1,0,0,0,0,0,0,0\n", "line 4, block: 0; that block ended where block 1 was opened, so this must be 1 (refusal 5)"),
    ("0,0,1,1,0,0,0,0,0,0,0\n1,0,0,2,0,0,0,0,0,0,0\n1,2,0,1,0,0,0,0,0,0,0\n1,1,1,1,2,0,0,0,0,0,0\n", "line 5, kind: a link stands behind a use; in a block all links come before the uses (refusal 5)"),
    ("0,0,9,1,0,0,0,0,0,0,0\n", "line 2, label: 9; a block has 0 to 8 joins (refusal 6)"),
    ("0,0,0,256,0,0,0,0,0,0,0\n", "line 2, a: 256; a block has 0 to 255 own cues (refusal 6)"),
    ("0,0,0,2,0,0,0,0,0,0,0\n0,1,256,1,2,0,0,0,0,0,0\n", "line 3, label: 256; a link's label is 1 to 255 (refusal 6)"),
    ("0,0,0,2,0,0,0,0,0,0,0\n0,1,00000,1,2,0,0,0,0,0,0\n", "line 3, label: 0; a link's label is 1 to 255 (refusal 6)"),
    ("0,0,0,2,0,0,0,0,0,0,0\n0,2,0,1,0,0,0,0,0,0,0\n", "line 3, kind: 2; block 0 has no earlier block to use (refusal 6)"),
    ("0,0,1,1,0,0,0,0,0,0,0\n1,0,0,2,0,0,0,0,0,0,0\n1,2,1,1,0,0,0,0,0,0,0\n", "line 4, label: 1; block 1 can use earlier blocks alone, 0 to 0 (refusal 6)"),
    ("0,0,0,0,0,0,0,0,0,0,0\n0,1,1,1,2,0,0,0,0,0,0\n", "line 3, a: 1; block 0 has neither own cues nor joins, so no cue can be named (refusal 6)"),
    ("0,0,2,1,0,0,0,0,0,0,0\n0,1,1,1,4,0,0,0,0,0,0\n", "line 3, b: 4; the cues of block 0 are 1 to 3: 1 own cue and 2 joins (refusal 6)"),
    ("0,0,1,0,0,0,0,0,0,0,0\n0,1,1,0,1,0,0,0,0,0,0\n", "line 3, a: 0; the cues of block 0 are 1 to 1: 0 own cues and 1 join (refusal 6)"),
    ("0,0,3,1,0,0,0,0,0,0,0\n1,0,2,1,0,0,0,0,0,0,0\n1,2,0,1,3,0,0,0,0,0,0\n", "line 4, c: 0; block 0 has 3 joins, so columns up to c name cues of block 1, 1 to 3 (refusal 6)"),
    ("0,0,1,1,0,0,0,0,0,0,0\n1,0,2,1,0,0,0,0,0,0,0\n1,2,0,4,0,0,0,0,0,0,0\n", "line 4, a: 4; block 0 has 1 join, so columns up to a name cues of block 1, 1 to 3 (refusal 6)"),
    ("0,0,0,1,1,0,0,0,0,0,0\n", "line 2, b: 1; b to h are idle in an opening, so this must be 0 (refusal 6)"),
    ("0,0,0,3,0,0,0,0,0,0,0\n0,1,1,1,2,3,0,0,0,0,0\n", "line 3, c: 3; c to h are idle in a link, so this must be 0 (refusal 6)"),
    ("0,0,1,1,0,0,0,0,0,0,0\n1,0,0,2,0,0,0,0,0,0,0\n1,2,0,1,2,0,0,0,0,0,0\n", "line 4, b: 2; block 0 has 1 join, so columns from b on are idle here and this must be 0 (refusal 6)"),
    ("0,0,0,2,0,0,0,0,0,0,0\n0,1,1,2,2,0,0,0,0,0,0\n", "line 3, b: cue 2 stands in a too; a link is between two cues (refusal 7)"),
    ("0,0,3,0,0,0,0,0,0,0,0\n1,0,0,2,0,0,0,0,0,0,0\n1,2,0,1,2,1,0,0,0,0,0\n", "line 4, c: cue 1 stands in a too; no cue takes two joins of a copy (refusal 7)"),
    ("0,0,0,2,0,0,0,0,0,0,0\n0,1,1,1,2,0,0,0,0,0,0\n0,1,1,1,2,0,0,0,0,0,0\n", "line 4: the same link stands in the line before; links rise by a, b and label (refusal 8)"),
    ("0,0,0,3,0,0,0,0,0,0,0\n0,1,1,1,3,0,0,0,0,0,0\n0,1,2,1,2,0,0,0,0,0,0\n", "line 4, b: 2; links rise by a, b and label, and the line before has 3 here (refusal 8)"),
    ("0,0,0,2,0,0,0,0,0,0,0\n0,1,7,1,2,0,0,0,0,0,0\n0,1,5,1,2,0,0,0,0,0,0\n", "line 4, label: 5; links rise by a, b and label, and the line before has 7 here (refusal 8)"),
    ("0,0,1,1,0,0,0,0,0,0,0\n1,0,0,2,0,0,0,0,0,0,0\n1,2,0,2,0,0,0,0,0,0,0\n1,2,0,1,0,0,0,0,0,0,0\n", "line 5, a: 1; uses never fall by a to h and label, and the line before has 2 here (refusal 8)"),
    ("0,0,2,1,0,0,0,0,0,0,0\n", "line 2, label: 2; the last block is the show and has no joins, so this must be 0 (refusal 9)"),
    ("0,0,0,0,0,0,0,0,0,0,0\n", "line 2, a: 0; the last block is the show and has 1 to 255 own cues (refusal 9)"),
    ("0,0,0,1,0,0,0,0,0,0,0\n1,0,0,1,0,0,0,0,0,0,0\n", "line 2, label: 0; a block before the last has 1 to 8 joins (refusal 9)"),
];

/// Lines of a file that is read behind the desk's blocks, and what is said of it.
const DESK_LINES: &[(&str, &str)] = &[
    ("", "there are no rows behind the names; a file that is read with the desk's blocks has 1 to 856 of its own (refusal 4)"),
    ("16,0,2, 1,0,0,0,0,0,0,0\n", "line 2, a: a space stands in this value; a value is digits alone (refusal 3)"),
    ("16,3,0,1,0,0,0,0,0,0,0\n", "line 2, kind: 3; a kind is 0 to 2: an opening, a link or a use (refusal 5)"),
    ("15,1,2,17,1,0,0,0,0,0,0\n", "line 2, kind: 1; the first row of a file that is read with the desk's blocks opens block 16, so this must be 0 (refusal 5)"),
    ("16,2,3,1,2,0,0,0,0,0,0\n", "line 2, kind: 2; the first row of a file that is read with the desk's blocks opens block 16, so this must be 0 (refusal 5)"),
    ("0,0,2,1,0,0,0,0,0,0,0\n", "line 2, block: 0; the desk's blocks are 0 to 15, and the first row of the file opens the next one, so this must be 16 (refusal 5)"),
    ("17,0,2,1,0,0,0,0,0,0,0\n", "line 2, block: 17; the desk's blocks are 0 to 15, and the first row of the file opens the next one, so this must be 16 (refusal 5)"),
    ("16,0,1,1,0,0,0,0,0,0,0\n15,0,0,1,0,0,0,0,0,0,0\n", "line 3, block: 15; that block is opened already, so this must be 17 (refusal 5)"),
    ("16,0,0,1,0,0,0,0,0,0,0\n15,2,0,1,2,0,0,0,0,0,0\n", "line 3, block: 15; that block ended where block 16 was opened, so this must be 16 (refusal 5)"),
    ("16,0,0,2,0,0,0,0,0,0,0\n16,2,16,1,2,0,0,0,0,0,0\n", "line 3, label: 16; block 16 can use earlier blocks alone, 0 to 15 (refusal 6)"),
    ("16,0,0,3,0,0,0,0,0,0,0\n16,2,15,1,2,3,0,0,0,0,0\n", "line 3, c: 3; block 15 has 2 joins, so columns from c on are idle here and this must be 0 (refusal 6)"),
    ("16,0,0,2,0,0,0,0,0,0,0\n16,2,3,1,1,0,0,0,0,0,0\n", "line 3, b: cue 1 stands in a too; no cue takes two joins of a copy (refusal 7)"),
    ("16,0,0,2,0,0,0,0,0,0,0\n16,2,3,1,2,0,0,0,0,0,0\n16,2,2,1,2,0,0,0,0,0,0\n", "line 4, label: 2; uses never fall by a to h and label, and the line before has 3 here (refusal 8)"),
    ("16,0,2,1,0,0,0,0,0,0,0\n", "line 2, label: 2; the last block is the show and has no joins, so this must be 0 (refusal 9)"),
];

/// Wait files, and what is said of them.
const WAITS: &[(&str, &str)] = &[
    ("", "line 1: the file is empty; its first line must be label,wait (refusal 15)"),
    ("\u{FEFF}label,wait\n", "line 1: a byte order mark stands before the names; a wait file has none (refusal 15)"),
    ("l\0a\0b\0e\0l\0", "line 1: each character has two bytes (UTF-16); in a wait file it has one (refusal 15)"),
    ("\n", "line 1: the line is empty; it must be label,wait (refusal 15)"),
    ("label,wait\r\n1,10\r\n", "line 1: a carriage return stands behind the names; a line feed alone ends a line (refusal 15)"),
    ("label,wait", "line 1: the line feed behind the names is missing (refusal 15)"),
    ("label,wa", "line 1: the file ends inside the names, which are label,wait (refusal 15)"),
    ("1,10\n", "line 1: values stand in the place of the names, which are label,wait (refusal 15)"),
    ("label;wait\n", "line 1: a semicolon stands between names; it must be a comma (refusal 15)"),
    ("label\twait\n", "line 1: a tab stands between names; it must be a comma (refusal 15)"),
    ("Label,Wait\n", "line 1: the names have capital letters; all of them are small (refusal 15)"),
    ("label, wait\n", "line 1: the names have spaces; there is none between them or around them (refusal 15)"),
    ("\"label\",\"wait\"\n", "line 1: the names have quote marks; they are written without any (refusal 15)"),
    ("label,wait,\n", "line 1: a comma stands behind the last name; the line ends without one (refusal 15)"),
    ("label\n", "line 1: the line has 1 name; the two are label,wait (refusal 15)"),
    ("label,time\n", "line 1, wait: 'time' stands here; the names are label,wait (refusal 15)"),
    ("label,wait\n\n", "line 2: the line is empty; each line behind the names is a label and its wait (refusal 15)"),
    ("label,wait\nlabel,wait\n", "line 2: the names stand here again; only the first line has them (refusal 15)"),
    ("label,wait\n1, 10\n", "line 2, wait: a space stands in this value; a value is digits alone (refusal 15)"),
    ("label,wait\n1,10\r\n", "line 2: a carriage return stands at the end of the line; a line feed alone ends it (refusal 15)"),
    ("label,wait\n1,\n", "line 2, wait: there is no value here; a value is one to five digits (refusal 15)"),
    ("label,wait\n000001,10\n", "line 2, label: 6 digits; a value has at most five, zeros in front counted (refusal 15)"),
    ("label,wait\n1,65536\n", "line 2, wait: 65536; a value is 0 to 65,535 (refusal 15)"),
    ("label,wait\n1\n", "line 2: the line has 1 value; a line of a wait file has two (refusal 15)"),
    ("label,wait\n1,10,2\n", "line 2: the line has 3 values; a line of a wait file has two (refusal 15)"),
    ("label,wait\n1,10,\n", "line 2: a comma stands behind the last value; a line ends without one (refusal 15)"),
    ("label,wait\n1,10\n2", "line 3: the file ends behind 1 value of this line; a line of a wait file has two and a line feed (refusal 15)"),
    ("label,wait\n1,10", "line 2: the line feed is missing; one ends every line, also the last (refusal 15)"),
    ("label,wait\n1,1\n0,10\n", "line 3, label: 0; a label that waits is 1 to 254 (refusal 16)"),
    ("label,wait\n255,6001\n", "line 2, label: 255; a label that waits is 1 to 254 (refusal 16)"),
    ("label,wait\n2,1\n1,6001\n", "line 3, wait: 6001; a wait is 0 to 6,000 tenths of a second (refusal 16)"),
    ("label,wait\n1,6001\n1,1\n1\n", "line 4: the line has 1 value; a line of a wait file has two (refusal 15)"),
    ("label,wait\n7,1\n00007,1\n", "line 3, label: 7; the line before has this label too, and labels rise from line to line (refusal 17)"),
    ("label,wait\n1,1\n7,1\n3,1\n", "line 4, label: 3; labels rise from line to line, and the line before has 7 here (refusal 17)"),
];

/// The explanation of a file that the library refuses.
fn explained(way: Way, file: &[u8]) -> Explained {
    explain::file(file, Some(file.len() as u64), way, refusal(way, file).expect("a refused file"))
}

/// The explanation of a wait file that the library refuses.
fn explained_waits(file: &str) -> Explained {
    let refused = waits_refusal(file.as_bytes()).expect("a refused wait file");
    explain::waits(file.as_bytes(), refused)
}

/// Files for the desk that are too large to write out.
fn large_desk() -> Vec<(Vec<u8>, &'static str)> {
    vec![
        (file_of(&desk::wide(857)), "there are 857 rows; a file that is read with the desk's blocks has 1 to 856, with the desk's 168 that is 1,024 (refusal 4)"),
        (file_of(&desk::moved(&many_blocks(113))), "line 114: this opens a 129th block, the desk's sixteen counted; a show has at most 128 (refusal 5)"),
        (file_of(&desk::moved(&known::tower(32))), "line 93: block 47 stands for 4,294,967,295 cues; at most 2,147,483,647 are allowed (refusal 10)"),
    ]
}

/// Files too large to write out.
fn large() -> Vec<(Vec<u8>, &'static str)> {
    let sixteen = [&[0xFF, 0xFE][..], b"b\0l\0o\0c\0k\0,\0"].concat();
    let mut rows = known::wide(1024);
    rows.extend_from_within(11..22);
    vec![
        (sixteen, "line 1: each character has two bytes (UTF-16); in a show file it has one (refusal 2)"),
        (vec![b'0'; 65_537], "the file has 65,537 bytes; a show file has at most 65,536 (refusal 1)"),
        (vec![b'0'; 1_234_567], "the file has 1,234,567 bytes; a show file has at most 65,536 (refusal 1)"),
        (file_of(&rows), "there are 1,025 rows; a show has 1 to 1,024 (refusal 4)"),
        (file_of(&many_blocks(129)), "line 130: this opens a 129th block; a show has at most 128 (refusal 5)"),
        (file_of(&known::tower(32)), "line 93: block 31 stands for 4,294,967,295 cues; at most 2,147,483,647 are allowed (refusal 10)"),
        (file_of(&known::tower_with_one_more()), "line 90: block 30 stands for 2,147,483,648 cues; at most 2,147,483,647 are allowed (refusal 10)"),
    ]
}

/// Questions about the ring that it has no answer to.
fn questions() -> Vec<(Explained, &'static str)> {
    let file = ring();
    let mut room = [0; ROWS_LEN];
    let read = Rows::read(&file, &mut room).expect("the ring is accepted");
    let path = |path: &[u32], own| {
        let refused = read.rows.number(path, own).expect_err("no such own cue");
        explain::path(refused, rows_of(&read), path, own)
    };
    let cues = |cues: &[u32]| explain::cues(Refused::NoSuchCue, cues, read.cues);
    let link = |s, t| {
        let row = |s, t| read.rows.row(s, t, &mut [0; PATH_LEN]).map(|origin| origin.row);
        explain::link(row(s, t).expect_err("no such link"), s, t, read.cues, row(t, s).is_ok())
    };
    vec![
        (cues(&[6]), "cue 6; the show has cues 1 to 5 (refusal 12)"),
        (cues(&[1, 0]), "cue 0; the show has cues 1 to 5 (refusal 12)"),
        (path(&[1; 128], 1), "the path has 128 steps; the longest has 127 (refusal 13)"),
        (path(&[1, 3], 1), "step 2 of the path is 3; block 1 has uses 1 to 2 (refusal 13)"),
        (path(&[0], 1), "step 1 of the path is 0; block 2 has uses 1 to 1 (refusal 13)"),
        (path(&[1, 1, 1], 1), "step 3 of the path is 1; block 0 has no uses (refusal 13)"),
        (path(&[1], 2), "own cue 2; block 1 has own cues 1 to 1 (refusal 13)"),
        (path(&[], 0), "own cue 0; block 2 has own cues 1 to 2 (refusal 13)"),
        (link(6, 1), "cue 6; the show has cues 1 to 5 (refusal 12)"),
        (link(5, 5), "no link leads from cue 5 to itself; a link is between two cues (refusal 14)"),
        (link(5, 1), "no link leads from cue 5 to cue 1; one leads from 1 to 5 (refusal 14)"),
        (link(5, 4), "no link leads from cue 5 to cue 4; `show out` lists what follows on from 5 (refusal 14)"),
    ]
}

/// A copy of a block without own cues.
fn no_own_cue() -> (Explained, &'static str) {
    let file = file_of(&known::knot());
    let mut room = [0; ROWS_LEN];
    let read = Rows::read(&file, &mut room).expect("the knot is accepted");
    let refused = read.rows.number(&[1], 1).expect_err("no such own cue");
    let said = explain::path(refused, rows_of(&read), &[1], 1);
    (said, "own cue 1; block 126 has no own cues (refusal 13)")
}

/// Where nothing is found that the library refuses, its own words are said.
fn unexplained() -> Vec<(Explained, &'static str)> {
    let file = ring();
    let empty = refusal(Way::Alone, b"").expect("an empty file is refused");
    let other = explain::file(&file, None, Way::Alone, empty);
    vec![
        (explain::cues(Refused::TooShort, &[], 5), "a lent list is too short (refusal 11)"),
        (
            explain::cues(Refused::OutOfRange(Place::Row(2)), &[], 5),
            "line 3: a value is out of its range, or an idle column is not 0 (refusal 6)",
        ),
        (other, "line 1: the first line is not block,kind,label,a,b,c,d,e,f,g,h (refusal 2)"),
        (
            explain::waits(b"label,wait\n", Refused::WaitsOutOfOrder(4)),
            "line 4: the labels of the wait file do not rise (refusal 17)",
        ),
    ]
}

/// What is said of files that are read behind the desk's blocks.
fn all_desk() -> impl Iterator<Item = (Explained, &'static str)> {
    let lines = DESK_LINES.iter();
    let lines = lines.map(|(lines, said)| (format!("{NAMES}{lines}").into_bytes(), *said));
    lines.chain(large_desk()).map(|(file, said)| (explained(Way::Desk, &file), said))
}

/// Everything that is said here, with what is expected.
fn all() -> Vec<(Explained, &'static str)> {
    let first = FIRST_LINES.iter().map(|(file, said)| (file.as_bytes().to_vec(), *said));
    let lines = LINES.iter().map(|(lines, said)| (format!("{NAMES}{lines}").into_bytes(), *said));
    let files = first.chain(lines).chain(large());
    let files = files.map(|(file, said)| (explained(Way::Alone, &file), said));
    let longer = vec![b'0'; 65_537];
    let unknown = explain::file(&longer, None, Way::Alone, Refused::FileTooLong);
    let most = "there are more than 65,536 bytes, the most that a show file has (refusal 1)";
    let mut all: Vec<(Explained, &str)> = files.chain(all_desk()).collect();
    all.extend(questions());
    all.extend(WAITS.iter().map(|(file, said)| (explained_waits(file), *said)));
    all.extend(unexplained());
    all.extend([no_own_cue(), (unknown, most)]);
    all
}

#[test]
fn every_sentence_is_said_as_it_stands_here() {
    for (explained, said) in all() {
        assert_eq!(explained.to_string(), said);
    }
}

#[test]
fn every_cause_is_among_them() {
    let seen: BTreeSet<&str> = all().iter().map(|(explained, _)| explained.cause.name()).collect();
    let all: BTreeSet<&str> = Cause::NAMES.iter().copied().collect();
    assert_eq!(seen, all, "causes without a sentence here, or the other way round");
}
