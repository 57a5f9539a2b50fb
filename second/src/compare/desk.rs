//! Fixed cases: files that are read behind the desk's blocks.

use super::big::{listed, steps, with_answers, work_area, Asked, Case};
use super::checker::{Checker, Subjected};
use super::outcome::Call;
use crate::gen::prng::Prng;
use crate::gen::{desk, edges, known, padding};
use crate::limits::{
    Refusal, BLOCKS, BYTES, COLUMNS, DESK_BLOCKS, DESK_ROWS, GIVEN, NAMES, NO_CHAIN, OWN_ROWS, ROWS,
};
use crate::naive::desk::table;
use crate::naive::file::print;
use crate::question::{Answer, Input, Question};

/// Every fixed case of the second way of reading.
pub const CASES: &[Case] = &[
    ("each block of the desk", each_block),
    ("all blocks of the desk", all_runs),
    ("a show on the desk's blocks", desk_run),
    ("a ring that uses none of the desk's blocks", |checker| {
        whole(checker, desk::moved(&known::ring()), [177, 19, 5])
    }),
    ("856 rows behind the desk's", |checker| whole(checker, desk::wide(OWN_ROWS), [1024, 17, 255])),
    ("857 rows behind the desk's", |checker| refused(checker, desk::wide(OWN_ROWS + 1), (4, 0))),
    ("128 blocks with the desk's", |checker| {
        whole(checker, desk::moved(&edges::many_blocks(112)), [280, 128, 1])
    }),
    ("129 blocks with the desk's", |checker| {
        refused(checker, desk::moved(&edges::many_blocks(113)), (5, 114))
    }),
    ("the longest rows behind the desk's", longest),
    ("a tower behind the desk's blocks", |checker| {
        sized(checker, desk::moved(&known::tower(31)), [259, 47, 2_147_483_647])
    }),
    ("first rows behind the desk's", first_rows),
    ("lines of refusals behind the desk's rows", lines),
    ("no rows behind the desk's", no_rows),
    ("padded files behind the desk's blocks", padded),
    ("one number or row changed behind the desk's", near_rows),
    ("one byte changed behind the desk's blocks", near_files),
];

/// A refusal and its place.
type Refused = (u32, usize);

fn file_of(rows: &[u32]) -> Vec<u8> {
    print(rows.as_chunks().0)
}

/// All rows where these are the file's own.
fn with_desk(own: &[u32]) -> Vec<u32> {
    [&table().concat(), own].concat()
}

/// Reading a file the second way comes out as is known, and with room of every length as the naive
/// tool has it.
fn reads(checker: &mut Checker, file: Vec<u8>, room: usize, result: &Result<Answer, Refusal>) {
    let input = Input::Desk(file);
    let call = Call { question: Question::Read { room }, given: GIVEN };
    checker.compare(&input, call, result);
    Subjected::new(checker, input).ask_file(&mut Prng::new(1, 1));
}

/// A file with these rows is read to so many rows, blocks and cues.
fn sized(checker: &mut Checker, own: Vec<u32>, sizes: [u32; 3]) {
    let all = with_desk(&own);
    reads(checker, file_of(&own), all.len(), &Ok(Answer::with_numbers(&sizes, &all)));
    with_answers(checker, all, &[(Question::Count, Ok(Answer::given(&sizes[2..])))]);
}

/// The same, with all that the naive tool can answer about what was read.
fn whole(checker: &mut Checker, own: Vec<u32>, sizes: [u32; 3]) {
    let all = with_desk(&own);
    sized(checker, own, sizes);
    Subjected::new(checker, Input::Rows(all)).ask_rows(&mut Prng::new(1, 1));
}

fn refused(checker: &mut Checker, own: Vec<u32>, refused: Refused) {
    file_refused(checker, file_of(&own), refused);
}

fn file_refused(checker: &mut Checker, file: Vec<u8>, (number, place): Refused) {
    reads(checker, file, 12_000, &Err(Refusal::new(number, place)));
}

/// The summaries of the desk's blocks: k + 2 from the first join to the second, none back.
fn summaries() -> Vec<Vec<Vec<u32>>> {
    (2..).take(DESK_BLOCKS).map(|steps| vec![vec![0, steps], vec![NO_CHAIN, 0]]).collect()
}

/// Questions about what was read, behind reading it.
fn answered(checker: &mut Checker, own: Vec<u32>, sizes: [u32; 3], answers: &[Asked]) {
    let all = with_desk(&own);
    whole(checker, own, sizes);
    with_answers(checker, all, answers);
}

/// Cue 3 is the first of the run, and follows on from cue 1.
fn each_block(checker: &mut Checker) {
    let mut summaries = summaries();
    summaries.push(vec![]);
    let work = work_area(&summaries);
    for k in 0..DESK_BLOCKS as u32 {
        let answers = [
            steps(1, 2, Some(k + 2), &work),
            steps(2, 1, None, &work),
            steps(1, k + 3, Some(k + 1), &work),
            steps(k + 3, 2, Some(1), &work),
            listed(true, 1, 0, &[3]),
            listed(false, 2, 0, &[k + 3]),
        ];
        answered(checker, desk::run(k), [170, 17, k + 3], &answers);
    }
}

/// The runs, one behind the other, are 152 follow-ons long.
fn all_runs(checker: &mut Checker) {
    let mut summaries = summaries();
    summaries.push(vec![]);
    let work = work_area(&summaries);
    let answers = [
        steps(1, 17, Some(152), &work),
        steps(17, 1, Some(1), &work),
        steps(2, 1, Some(151), &work),
    ];
    answered(checker, desk::all_runs(), [186, 17, 17 + 136], &answers);
}

/// In the file's first block a run of five cues leads from the first join to the own cue, and one of
/// two from there to the second join; its note is not followed.
fn desk_run(checker: &mut Checker) {
    let mut summaries = summaries();
    summaries.push(vec![vec![0, 9], vec![NO_CHAIN, 0]]);
    summaries.push(vec![]);
    let work = work_area(&summaries);
    let answers = [
        steps(1, 2, Some(9), &work),
        steps(2, 3, Some(2), &work),
        steps(3, 2, Some(9), &work),
        steps(3, 1, Some(1), &work),
        steps(2, 1, Some(3), &work),
        steps(1, 3, Some(11), &work),
    ];
    answered(checker, desk::desk_run(), [177, 18, 3 + 2 * 8 + 1], &answers);
}

/// Written as a whole, the most rows with the most digits stay below the longest file.
fn longest(checker: &mut Checker) {
    let own = desk::longest();
    let all = with_desk(&own);
    assert_eq!(all.len(), ROWS * COLUMNS);
    assert!(file_of(&all).len() < BYTES);
    reads(checker, file_of(&own), all.len(), &Ok(Answer::with_numbers(&longest_sizes(), &all)));
}

/// Rows, blocks and cues of the show with the longest rows: the block before the last has 255 cues for each of the
/// 110 blocks above the first, and one.
fn longest_sizes() -> [u32; 3] {
    let before = 110 * 255 + 1;
    let uses = OWN_ROWS as u32 - 1 - 110 * 2 - 1;
    [ROWS as u32, BLOCKS as u32, 255 + uses * before]
}

/// Each first row with the refusal of a file that has it and then the rows of a show; none for
/// the one that opens the block behind those of the desk.
fn first_rows(checker: &mut Checker) {
    let show = "16,0,0,2,0,0,0,0,0,0,0\n16,2,3,1,2,0,0,0,0,0,0\n";
    let firsts = [
        "0,0,2,1,0,0,0,0,0,0,0",
        "0,0,0,1,0,0,0,0,0,0,0",
        "15,0,2,16,0,0,0,0,0,0,0",
        "17,0,2,1,0,0,0,0,0,0,0",
        "128,0,0,1,0,0,0,0,0,0,0",
        "65535,0,0,1,0,0,0,0,0,0,0",
        // Lawful behind the last row of block 15: a link and a use.
        "15,1,2,17,1,0,0,0,0,0,0",
        "15,1,255,18,17,0,0,0,0,0,0",
        "15,2,0,1,2,0,0,0,0,0,0",
        "15,2,14,17,18,0,0,0,0,0,0",
        // Not lawful there either.
        "15,1,1,1,2,0,0,0,0,0,0",
        "16,1,1,1,2,0,0,0,0,0,0",
        "16,2,3,1,2,0,0,0,0,0,0",
        "16,3,0,2,0,0,0,0,0,0,0",
        "0,1,1,1,2,0,0,0,0,0,0",
    ];
    for first in firsts {
        for rest in ["", show] {
            let file = format!("{first}\n{rest}");
            file_refused(checker, [NAMES, file.as_bytes()].concat(), (5, 2));
        }
    }
    let twice = format!("16,0,1,1,0,0,0,0,0,0,0\n{show}");
    file_refused(checker, [NAMES, twice.as_bytes()].concat(), (5, 3));
    file_refused(checker, [NAMES, b"16,0,9,1,0,0,0,0,0,0,0\n"].concat(), (6, 2));
}

/// Refusals 1 to 3 and 5 to 10 at the lines of the file.
fn lines(checker: &mut Checker) {
    let files: [(&str, Refused); 16] = [
        ("16,0,0,2,0,0,0,0,0,0,0\n16,2,3,1,2,0,0,0,0,0\n", (3, 3)),
        ("16,0,0,2,0,0,0,0,0,0,0\n16,2,3,1,2,0,0,0,0,0,0", (3, 3)),
        ("16,0,0,65536,0,0,0,0,0,0,0\n", (3, 2)),
        ("16,0,0,2,0,0,0,0,0,0,0\n15,2,3,1,2,0,0,0,0,0,0\n", (5, 3)),
        ("16,0,1,2,0,0,0,0,0,0,0\n18,0,0,1,0,0,0,0,0,0,0\n", (5, 3)),
        ("16,0,0,2,0,0,0,0,0,0,0\n16,2,3,1,2,0,0,0,0,0,0\n16,1,1,1,2,0,0,0,0,0,0\n", (5, 4)),
        ("16,0,0,256,0,0,0,0,0,0,0\n", (6, 2)),
        ("16,0,0,2,0,0,0,0,0,0,0\n16,2,16,1,2,0,0,0,0,0,0\n", (6, 3)),
        ("16,0,0,2,0,0,0,0,0,0,0\n16,2,15,1,3,0,0,0,0,0,0\n", (6, 3)),
        ("16,0,0,2,0,0,0,0,0,0,0\n16,2,15,1,0,0,0,0,0,0,0\n", (6, 3)),
        ("16,0,0,3,0,0,0,0,0,0,0\n16,2,15,1,2,3,0,0,0,0,0\n", (6, 3)),
        ("16,0,0,2,0,0,0,0,0,0,0\n16,2,0,2,2,0,0,0,0,0,0\n", (7, 3)),
        ("16,0,0,2,0,0,0,0,0,0,0\n16,2,1,1,2,0,0,0,0,0,0\n16,2,0,1,2,0,0,0,0,0,0\n", (8, 4)),
        ("16,0,2,1,0,0,0,0,0,0,0\n", (9, 2)),
        ("16,0,1,1,0,0,0,0,0,0,0\n17,0,0,0,0,0,0,0,0,0,0\n", (9, 3)),
        ("16,0,0,1,0,0,0,0,0,0,0\n17,0,0,1,0,0,0,0,0,0,0\n", (9, 2)),
    ];
    for (rows, place) in files {
        file_refused(checker, [NAMES, rows.as_bytes()].concat(), place);
    }
    refused(checker, desk::moved(&known::tower(32)), (10, 93));
    refused(checker, desk::moved(&known::unused_tower()), (10, 93));
    file_refused(checker, NAMES[..32].to_vec(), (2, 1));
    file_refused(checker, vec![b'0'; BYTES + 1], (1, 0));
}

/// No row, and more rows than the desk leaves room for: a line that is no row comes first.
fn no_rows(checker: &mut Checker) {
    file_refused(checker, NAMES.to_vec(), (4, 0));
    let row = b"16,0,0,2,0,0,0,0,0,0,0\n";
    for rows in [OWN_ROWS + 1, ROWS, ROWS + 1] {
        let mut file = [NAMES, &row.repeat(rows)].concat();
        file_refused(checker, file.clone(), (4, 0));
        file.pop();
        file_refused(checker, file, (3, rows + 1));
    }
    let file = [NAMES, &row.repeat(OWN_ROWS)].concat();
    file_refused(checker, file, (5, 3));
}

/// Zeros in front are read; the most rows stay below the longest file with all of them. A longer file
/// has too many rows, or too many bytes.
fn padded(checker: &mut Checker) {
    for own in [desk::desk_run(), desk::wide(OWN_ROWS), desk::longest()] {
        let all = with_desk(&own);
        let (file, cues) = (file_of(&own), count_of(&all));
        let blocks = all[all.len() - COLUMNS] + 1;
        let sizes = [(all.len() / COLUMNS) as u32, blocks, cues];
        for file in [padding::to_digits(&file, 2), padding::to_digits(&file, padding::DIGITS)] {
            reads(checker, file, all.len(), &Ok(Answer::with_numbers(&sizes, &all)));
        }
    }
    let file = file_of(&desk::wide(1000));
    file_refused(checker, padding::to_length(&file, BYTES), (4, 0));
    file_refused(checker, padding::to_length(&file, BYTES + 1), (1, 0));
}

fn count_of(rows: &[u32]) -> u32 {
    let show = crate::naive::ask::Show::of_rows(rows);
    show.unwrap_or_else(|refusal| panic!("a show of this file is refused: {refusal:?}")).count()
}

/// Every small change of some shows, and now and then all questions about what is read.
fn near_rows(checker: &mut Checker) {
    let prng = &mut Prng::new(1, 1);
    let near = desk::bases().into_iter().flat_map(|base| edges::near_rows(&base));
    for (rows, turn) in near.zip(0..) {
        let mut asked = Subjected::new(checker, Input::Desk(file_of(&rows)));
        asked.ask_once(DESK_ROWS * COLUMNS + rows.len());
        let whole = asked.known.ok().filter(|_| turn % 20 == 0).map(|show| show.rows.concat());
        if let Some(rows) = whole {
            Subjected::new(checker, Input::Rows(rows)).ask_rows(prng);
        }
    }
}

/// Every small change of a file.
fn near_files(checker: &mut Checker) {
    for file in edges::near_files(&file_of(&desk::run(15))) {
        Subjected::new(checker, Input::Desk(file)).ask_once(2000);
    }
}
