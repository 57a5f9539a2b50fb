//! Fixed cases: the named shows. Those too large to unfold come with their answers.

use super::checker::{Checker, Subjected};
use super::outcome::Call;
use crate::gen::prng::Prng;
use crate::gen::{edges, known};
use crate::limits::{Refusal, GIVEN, JOINS, NO_CHAIN, PATH, STRIDE, WORK};
use crate::naive::file::print;
use crate::question::{Answer, Input, Question};

type Result = std::result::Result<Answer, Refusal>;

/// A question with its answer.
pub type Asked = (Question, Result);
/// A named case.
pub type Case = (&'static str, fn(&mut Checker));

/// Fixed cases of all questions.
pub const CASES: &[Case] = &[
    ("ring", |checker| in_full(checker, known::ring())),
    ("knot", |checker| in_full(checker, known::knot())),
    ("short long ring", |checker| in_full(checker, known::long_ring(9))),
    ("small tower", |checker| in_full(checker, known::tower(8))),
    ("1,024 rows", |checker| in_full(checker, known::wide(1024))),
    ("1,025 rows", |checker| in_full(checker, known::wide(1025))),
    ("127 levels of cues", |checker| in_full(checker, known::deep(true))),
    ("127 levels of cues, inward", |checker| in_full(checker, known::deep(false))),
    ("127 levels of one join", |checker| in_full(checker, known::deep_join())),
    ("eight joins and 255 cues", |checker| in_full(checker, known::full())),
    ("links to eight joins", |checker| in_full(checker, known::all_joins())),
    ("dense", |checker| in_full(checker, known::dense())),
    ("five blocks", |checker| in_full(checker, known::five_blocks())),
    ("bad order", |checker| in_full(checker, known::bad_order())),
    ("one number or row changed", near_rows),
    ("one byte changed", near_files),
    ("128 blocks", |checker| in_full(checker, edges::many_blocks(128))),
    ("129 blocks", |checker| refused(checker, edges::many_blocks(129), 5, 129)),
    ("tower", tower),
    ("too high a tower", |checker| refused(checker, known::tower(32), 10, 92)),
    ("tower with one more", |checker| refused(checker, known::tower_with_one_more(), 10, 89)),
    ("unused tower", |checker| refused(checker, known::unused_tower(), 10, 92)),
    ("tower with joins", tower_with_joins),
    ("long ring", long_ring),
    ("trap", trap),
    ("trap taken twice", |checker| refused(checker, known::trap_twice(), 10, 191)),
    ("a million linked cues", |checker| star(checker, true)),
    ("a million linked cues, inward", |checker| star(checker, false)),
];

/// Everything the naive tool can answer about a show.
pub fn in_full(checker: &mut Checker, rows: Vec<u32>) {
    let prng = &mut Prng::new(1, 1);
    let file = print(rows.as_chunks().0);
    Subjected::new(checker, Input::File(file)).ask_file(prng);
    Subjected::new(checker, Input::Rows(rows)).ask_rows(prng);
}

/// Every small change of some shows: the count, and now and then all questions.
fn near_rows(checker: &mut Checker) {
    let prng = &mut Prng::new(1, 1);
    for (rows, turn) in edges::bases().iter().flat_map(|base| edges::near_rows(base)).zip(0..) {
        let file = print(rows.as_chunks().0);
        let room = rows.len();
        Subjected::new(checker, Input::File(file)).ask_once(room);
        let mut asked = Subjected::new(checker, Input::Rows(rows));
        asked.ask(Question::Count);
        if turn % 100 == 0 {
            asked.ask_rows(prng);
        }
    }
}

/// Every small change of a file.
fn near_files(checker: &mut Checker) {
    for file in edges::near_files(&print(known::ring().as_chunks().0)) {
        Subjected::new(checker, Input::File(file)).ask_once(100);
    }
}

/// What needs no unfolding of a show, then the answers it comes with.
pub fn with_answers(checker: &mut Checker, rows: Vec<u32>, answers: &[Asked]) {
    let prng = &mut Prng::new(1, 1);
    let file = print(rows.as_chunks().0);
    Subjected::new(checker, Input::File(file)).ask_file(prng);
    Subjected::new(checker, Input::Rows(rows.clone())).ask_folded(prng);
    let input = Input::Rows(rows);
    for (question, result) in answers {
        let call = Call { question: question.clone(), given: GIVEN };
        checker.compare(&input, call, result);
    }
}

/// A show that the naive tool refuses too, and by this number and row.
fn refused(checker: &mut Checker, rows: Vec<u32>, number: u32, row: usize) {
    let refusal = Refusal::new(number, row);
    let line = Refusal::new(number, row + 1);
    let file = Input::File(print(rows.as_chunks().0));
    let call = Call { question: Question::Read { room: rows.len() }, given: GIVEN };
    checker.compare(&file, call, &Err(line));
    with_answers(checker, rows.clone(), &[(Question::Count, Err(refusal))]);
    in_full(checker, rows);
}

/// The refusal of joins in the last block comes before that of totals.
fn tower_with_joins(checker: &mut Checker) {
    let mut rows = known::tower(32);
    let top = rows.len() - 33;
    rows[top + 2] = 1;
    refused(checker, rows, 9, 92);
}

fn located(n: u32, path: &[u32], block: u32, own: u32) -> [Asked; 2] {
    let given = [path.len() as u32, block, own];
    let number = Question::Number { path: path.to_vec(), own };
    [
        (Question::Locate { n, room: PATH }, Ok(Answer::with_numbers(&given, path))),
        (number, Ok(Answer::given(&[n]))),
    ]
}

fn no_path(path: &[u32], own: u32) -> Asked {
    (Question::Number { path: path.to_vec(), own }, Err(Refusal::new(13, 0)))
}

/// The cues linked with v, above n; few enough for a page of five.
pub fn listed(outward: bool, v: u32, n: u32, cues: &[u32]) -> Asked {
    let answer = Answer::with_numbers(&[cues.len() as u32, 0], cues);
    (Question::List { outward, v, n, room: 5 }, Ok(answer))
}

/// The fewest steps from s to t, or none, with this work area.
pub fn steps(s: u32, t: u32, steps: Option<u32>, work: &[u32]) -> Asked {
    let given = [steps.is_some().into(), steps.unwrap_or(0)];
    (Question::Fewest { s, t, room: WORK + 3 }, Ok(Answer::with_numbers(&given, work)))
}

/// A work area from the summaries of all blocks; each gives its lines from join to join.
pub fn work_area(summaries: &[Vec<Vec<u32>>]) -> Vec<u32> {
    let mut work = vec![0; WORK];
    for (summary, block) in summaries.iter().zip(work.chunks_mut(STRIDE)) {
        block.fill(NO_CHAIN);
        for (line, place) in summary.iter().zip(block.chunks_mut(JOINS)) {
            place[..line.len()].copy_from_slice(line);
        }
    }
    work
}

fn tower(checker: &mut Checker) {
    let last = 2_147_483_647;
    let mut summaries = vec![vec![vec![0]]; 30];
    summaries.push(Vec::new());
    let work = work_area(&summaries);
    let mut answers = vec![
        (Question::Count, Ok(Answer::given(&[last]))),
        (Question::Locate { n: last + 1, room: PATH }, Err(Refusal::new(12, 0))),
        no_path(&[2; 30], 2),
        no_path(&[2; 31], 1),
        no_path(&[3], 1),
        listed(true, last, 0, &[]),
        steps(1, last, None, &work),
        steps(last, last, Some(0), &work),
    ];
    answers.extend(located(last, &[2; 30], 0, 1));
    answers.extend(located(31, &[1; 30], 0, 1));
    answers.extend(located(1_073_741_825, &[2], 29, 1));
    with_answers(checker, known::tower(31), &answers);
}

/// The chain from cue 1 enters at the last cue; it leaves to cue 2 from cue 32.
fn long_ring(checker: &mut Checker) {
    let last = 1_073_741_825;
    let half = 536_870_912;
    let mut summaries: Vec<_> =
        (1..=30).map(|k| vec![vec![0, 1 << k], vec![NO_CHAIN, 0]]).collect();
    summaries.push(Vec::new());
    let work = work_area(&summaries);
    let mut path = [2; 30];
    path[0] = 1;
    let mut answers = vec![
        (Question::Count, Ok(Answer::given(&[last]))),
        listed(true, 2, 0, &[1]),
        listed(true, 1, 0, &[last]),
        listed(true, 1, last, &[]),
        listed(false, 2, 0, &[32]),
        listed(false, 2, 31, &[32]),
        listed(false, 2, 32, &[]),
    ];
    let distances = [
        (1, 2, 2 * half),
        (2, 1, 1),
        (1, 3, half),
        (3, 2, half),
        (3, 1, half + 1),
        (32, 2, 1),
        (2, last, 2),
        (last, 1, 2 * half),
        (last, last, 0),
        (1, 1, 0),
        (3, last, half + 2),
    ];
    answers.extend(distances.map(|(s, t, fewest)| steps(s, t, Some(fewest), &work)));
    answers.extend(located(last, &path, 0, 1));
    answers.extend(located(32, &[1; 30], 0, 1));
    with_answers(checker, known::long_ring(30), &answers);
}

fn trap(checker: &mut Checker) {
    let both = |steps: u32| vec![vec![0, steps], vec![steps, 0]];
    let three =
        |steps: u32| vec![vec![0, steps, 2], vec![steps, 0, steps], vec![NO_CHAIN, NO_CHAIN, 0]];
    let mut summaries: Vec<_> = (1..=30).map(|k| both(1 << k)).collect();
    summaries.extend((1..=31).map(|k| three(1 << k)));
    summaries.push(three(1 << 31));
    summaries.push(Vec::new());
    let work = work_area(&summaries);
    let answers = [
        (Question::Count, Ok(Answer::given(&[2]))),
        steps(1, 2, Some(1), &work),
        steps(2, 1, None, &work),
    ];
    with_answers(checker, known::trap_show(), &answers);
}

/// Pages through all cues that cue 1 is linked to.
fn star(checker: &mut Checker, outward: bool) {
    let levels = 20;
    let last: u32 = 1 << levels;
    let page = |n: u32, room: usize| {
        let cues: Vec<u32> = ((n + 1).max(2)..=last).take(room).collect();
        let more = cues.last().map_or(n < last, |cue| *cue < last);
        let answer = Answer::with_numbers(&[cues.len() as u32, more.into()], &cues);
        (Question::List { outward, v: 1, n, room }, Ok(answer))
    };
    let mut answers: Vec<Asked> = (0..=last).step_by(4096).map(|n| page(n, 4096)).collect();
    answers.extend((0..=last).step_by(99_991).map(|n| page(n, 256)));
    answers.extend([0, 1, 2, last - 2, last - 1, last].map(|n| page(n, 1)));
    answers.extend([0, 1, 2, last - 1, last, last + 1].map(|n| page(n, 0)));
    answers.extend([listed(!outward, 1, 0, &[]), listed(!outward, last, 0, &[1])]);
    answers.push(listed(outward, last, 0, &[]));
    with_answers(checker, known::star(levels, outward), &answers);
}
