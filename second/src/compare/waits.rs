//! Fixed cases: the quickest way, and wait files that are right or broken.

use super::behind::answered;
use super::big::{with_answers, Asked, Case};
use super::checker::{Checker, Subjected};
use super::outcome::Call;
use crate::gen::waits::{
    detour, every, file_of, mixed, of, three_ways, LAWFUL, MALFORMED, OUTSIDE,
};
use crate::gen::{desk, edges, known, notes};
use crate::limits::{Refusal, BYTES, FOLLOWED, GIVEN, NAMES, WAIT, WAIT_NAMES, WORK};
use crate::naive::desk::table;
use crate::question::{Answer, Input, Question};

/// Every fixed case of the quickest way.
pub const CASES: &[Case] = &[
    ("the quickest way in the ring", ring),
    ("the quickest way is not the shortest", ways),
    ("no label waits", no_waits),
    ("a note is not followed, whatever its label's line says", noted),
    ("the quickest way through the desk's runs", runs),
    ("the quickest way in the long ring", long_ring),
    ("sums around 32 bits", around_32_bits),
    ("sums of the trap", trap),
    ("no way in the tower", tower),
    ("one link, often copied", knot),
    ("every label has its own wait", labels),
    ("lines of wait files", lines),
    ("faults of several kinds in a wait file", several),
    ("the names of a wait file", names),
    ("the ends of a wait file", ends),
    ("one byte of a wait file changed", near),
    ("long wait files", long),
    ("what is refused before a wait file", before),
    ("work areas of 64-bit numbers", areas),
];

/// The sum from cue 1 to cue 2, or the number and the line of a refusal.
type Known = Result<u64, (u32, usize)>;

/// Waits of the ring that are used throughout.
fn ring_waits() -> Vec<u8> {
    of(&[(1, 10), (2, 25)])
}

fn question(s: u32, t: u32, waits: &[u8]) -> Question {
    Question::Quickest { s, t, waits: waits.to_vec(), room: WORK + 3 }
}

/// The quickest way from s to t takes so long, or there is none.
fn takes(waits: &[u8], s: u32, t: u32, tenths: Option<u64>) -> Asked {
    let sum = tenths.unwrap_or(0);
    let given = [tenths.is_some().into(), sum as u32, (sum >> 32) as u32];
    (question(s, t, waits), Ok(Answer { wide: vec![0; WORK], ..Answer::given(&given) }))
}

/// The same for several pairs.
fn all_take(waits: &[u8], sums: &[(u32, u32, Option<u64>)]) -> Vec<Asked> {
    sums.iter().map(|(s, t, tenths)| takes(waits, *s, *t, *tenths)).collect()
}

fn refused(waits: &[u8], refusal: (u32, usize)) -> [Asked; 3] {
    let refusal = Refusal::new(refusal.0, refusal.1);
    // Also where no way leads from the one cue to the other, and from a cue to itself.
    [(1, 2), (2, 1), (2, 2)].map(|(s, t)| (question(s, t, waits), Err(refusal)))
}

/// Wait files on a show of two cues and a link with label 1, each with its refusal or with the sum from 1 to 2.
fn on_two_cues(checker: &mut Checker, files: Vec<(Vec<u8>, Known)>) {
    let rows = two_cues(1);
    let input = Input::Rows(rows);
    for (file, result) in files {
        let asked = match result {
            Err(refusal) => refused(&file, refusal).into(),
            Ok(sum) => all_take(&file, &[(1, 2, Some(sum)), (2, 1, None), (2, 2, Some(0))]),
        };
        for (question, result) in asked {
            checker.compare(&input, Call { question, given: GIVEN }, &result);
        }
    }
}

fn two_cues(label: u32) -> Vec<u32> {
    [[0, 0, 0, 2, 0, 0, 0, 0, 0, 0, 0], [0, 1, label, 1, 2, 0, 0, 0, 0, 0, 0]].concat()
}

fn ring(checker: &mut Checker) {
    let mut answers = Vec::new();
    let sums = [
        (2, [40, 0, 20, 10, 30]),
        (3, [20, 45, 0, 55, 10]),
        (1, [0, 25, 45, 35, 55]),
        (4, [30, 55, 10, 0, 20]),
        (5, [10, 35, 55, 45, 0]),
    ];
    for (t, from) in sums {
        let sums: Vec<_> = (1..).zip(from).map(|(s, sum)| (s, t, Some(sum))).collect();
        answers.extend(all_take(&ring_waits(), &sums));
    }
    let without = of(&[(1, 10)]);
    answers.extend(all_take(
        &without,
        &[(1, 2, Some(40)), (2, 1, Some(0)), (4, 3, Some(30)), (3, 3, Some(0))],
    ));
    let three = [(1, 2), (2, 1), (4, 3)];
    for (waits, sums) in [(WAIT_NAMES, [0, 0, 0]), (&every(WAIT), [24_000, 6_000, 24_000])] {
        let sums: Vec<_> = three.iter().zip(sums).map(|(&(s, t), sum)| (s, t, Some(sum))).collect();
        answers.extend(all_take(waits, &sums));
    }
    answered(checker, known::ring(), &answers);
}

/// With these waits the way of four links is quicker than the one of two, and that than the one of one.
fn ways(checker: &mut Checker) {
    let waits = of(&[(1, 10), (3, 50)]);
    let answers = [takes(&waits, 1, 2, Some(20)), takes(&of(&[(1, 10), (3, 19)]), 1, 2, Some(19))];
    answered(checker, detour(), &answers);
    let quickest = [
        ([100, 200, 200, 900], 400),
        ([101, 200, 200, 900], 400),
        ([99, 200, 200, 900], 396),
        ([100, 200, 199, 900], 399),
        ([100, 300, 200, 450], 400),
        ([100, 300, 200, 350], 350),
        ([0, 0, 0, 0], 0),
    ];
    let waits = |[five, seven, eight, nine]: [u32; 4]| {
        of(&[(5, five), (7, seven), (8, eight), (9, nine), (254, 6)])
    };
    let mut answers: Vec<Asked> =
        quickest.iter().map(|(of, sum)| takes(&waits(*of), 1, 2, Some(*sum))).collect();
    answers.push(takes(&waits([100, 200, 200, 900]), 2, 1, Some(6)));
    answered(checker, three_ways(), &answers);
}

/// A way that takes no time is a way.
fn no_waits(checker: &mut Checker) {
    for waits in [WAIT_NAMES.to_vec(), every(0), of(&[(77, WAIT)])] {
        let sums = [(1, 2, Some(0)), (2, 1, Some(0)), (4, 3, Some(0)), (5, 5, Some(0))];
        answered(checker, known::ring(), &all_take(&waits, &sums));
        let noted = known::ring_back(2, notes::NOTE);
        let sums = [(1, 2, Some(0)), (2, 1, None), (4, 3, None), (3, 3, Some(0))];
        answered(checker, noted, &all_take(&waits, &sums));
    }
}

fn noted(checker: &mut Checker) {
    let sums = [(1, 2, Some(40)), (2, 1, None), (4, 3, None), (3, 3, Some(0)), (5, 2, Some(30))];
    answered(checker, known::ring_back(2, notes::NOTE), &all_take(&ring_waits(), &sums));
    // No line is for the label of a note; that of the last label that is followed counts.
    let waits = of(&[(1, 10), (FOLLOWED, 25)]);
    let back = known::ring_back(2, FOLLOWED);
    answered(checker, back, &all_take(&waits, &[(2, 1, Some(25)), (4, 3, Some(55))]));
    let last = of(&[(FOLLOWED - 1, 25), (FOLLOWED, 1)]);
    answered(checker, notes::beside(), &all_take(&last, &[(3, 4, Some(1)), (1, 4, Some(1))]));
}

fn runs(checker: &mut Checker) {
    for k in [0, 7, 15] {
        let rows = [table().concat(), desk::run(k)].concat();
        let long = u64::from(k + 2) * 6_000;
        let sums = [(1, 2, Some(long)), (2, 1, None), (1, 3, Some(6_000))];
        answered(checker, rows, &all_take(&of(&[(1, WAIT)]), &sums));
    }
}

/// Chains of 2^30 links: the sum in tenths has more than 32 bits.
fn long_ring(checker: &mut Checker) {
    let (last, whole, half) = (1_073_741_825, 1u64 << 30, 1u64 << 29);
    let mut answers = Vec::new();
    for (one, two) in [(6_000, 6_000), (5_999, 0), (4, 1), (3, 6_000), (0, 6_000), (1, 0)] {
        let sums = [
            (1, 2, Some(whole * one)),
            (2, 1, Some(two)),
            (1, 3, Some(half * one)),
            (3, 1, Some(half * one + two)),
            (last, 1, Some((whole - 1) * one + two)),
            (3, last, Some((half + 1) * one + two)),
            (32, 2, Some(one)),
            (last, last, Some(0)),
        ];
        answers.extend(all_take(&of(&[(1, one as u32), (2, two as u32)]), &sums));
    }
    answers.push(takes(&every(WAIT), 1, 2, Some(6_442_450_944_000)));
    with_answers(checker, known::long_ring(30), &answers);
}

/// All that 32 bits hold is a sum, and so are the numbers around it.
fn around_32_bits(checker: &mut Checker) {
    let last = (1 << 20) + 1;
    for (two, sum) in [(4094, 0xFFFF_FFFE), (4095, 0xFFFF_FFFF), (4096, 1 << 32)] {
        let waits = of(&[(1, 4096), (2, two)]);
        let sums = [(last, 1, Some(sum)), (1, 2, Some(1 << 32)), (1, 1, Some(0))];
        with_answers(checker, known::long_ring(20), &all_take(&waits, &sums));
    }
}

/// A block that is not used has chains of 2^32 links, so sums of over 44 bits.
fn trap(checker: &mut Checker) {
    for wait in [0, 1, WAIT] {
        let sums = [(1, 2, Some(wait.into())), (2, 1, None), (2, 2, Some(0))];
        with_answers(checker, known::trap_show(), &all_take(&of(&[(1, wait)]), &sums));
    }
}

fn tower(checker: &mut Checker) {
    let last = 2_147_483_647;
    for waits in [WAIT_NAMES.to_vec(), every(WAIT)] {
        let sums = [(1, last, None), (last, 1, None), (last, last, Some(0))];
        with_answers(checker, known::tower(31), &all_take(&waits, &sums));
    }
}

fn knot(checker: &mut Checker) {
    let sums = [(1, 2, Some(6_000)), (2, 1, None)];
    answered(checker, known::knot(), &all_take(&every(WAIT), &sums));
}

/// Each label's line is found, and no other's.
fn labels(checker: &mut Checker) {
    let wait = |label: u32| label * 23 + 7;
    let all = of(&(1..=FOLLOWED).map(|label| (label, wait(label))).collect::<Vec<_>>());
    for label in 1..=FOLLOWED {
        let input = Input::Rows(two_cues(label));
        let others = [label - 1, label + 1].into_iter().filter(|other| (1..255).contains(other));
        let others: Vec<(u32, u32)> = others.map(|other| (other, WAIT)).collect();
        let (alone, others) = (of(&[(label, wait(label))]), of(&others));
        for (waits, sum) in [(&all, wait(label)), (&alone, wait(label)), (&others, 0)] {
            let (question, answer) = takes(waits, 1, 2, Some(sum.into()));
            checker.compare(&input, Call { question, given: GIVEN }, &answer);
        }
    }
}

/// Each line alone, behind a lawful one and before one.
fn lines(checker: &mut Checker) {
    let malformed = MALFORMED.iter().map(|line| (*line, 15));
    let outside = OUTSIDE.iter().map(|line| (*line, 16));
    let mut files = Vec::new();
    for (line, number) in malformed.chain(outside) {
        files.push((file_of(&[line]), Err((number, 2))));
        files.push((file_of(&["1,5", line]), Err((number, 3))));
        files.push((file_of(&["1,5", "2,5", line, "254,7"]), Err((number, 4))));
        files.push((file_of(&[line, "254,7"]), Err((number, 2))));
    }
    let sums = [0, 6000, 0, 0, 6000, 0, 1, 0];
    files.extend(LAWFUL.iter().zip(sums).map(|(line, sum)| (file_of(&[line]), Ok(sum))));
    for (lines, place) in [
        (&["2,1", "2,1"][..], 3),
        (&["2,1", "1,1"], 3),
        (&["1,1", "2,1", "2,2"], 4),
        (&["1,1", "2,1", "1,2", "1,3"], 4),
        (&["254,1", "254,1"], 3),
        (&["254,1", "1,1"], 3),
        (&["00002,1", "2,1"], 3),
    ] {
        files.push((file_of(lines), Err((17, place))));
    }
    on_two_cues(checker, files);
}

/// Each of 15, 16 and 17 looks at the whole file before the next does.
fn several(checker: &mut Checker) {
    let mut files: Vec<(Vec<u8>, Known)> = Vec::new();
    for (file, refusal) in mixed() {
        let place = |refusal: Refusal| (refusal.number, refusal.place as usize);
        files.push((file, refusal.map_or(Ok(u64::from(WAIT)), |refusal| Err(place(refusal)))));
    }
    files.push((file_of(&["1,6001", "1,1", "1"]), Err((15, 4))));
    files.push((file_of(&["2,1", "1,1", "1,6001"]), Err((16, 4))));
    files.push((file_of(&["2,1", "2,1"]), Err((17, 3))));
    on_two_cues(checker, files);
}

/// The first line is the names to the letter; a broken one is line 1, whatever follows.
fn names(checker: &mut Checker) {
    let texts: [&[u8]; 16] = [
        b"",
        b"\n",
        b"label,wait",
        b"label,wai",
        b"l",
        b"label,wait\r\n",
        b"label,wait,\n",
        b"Label,wait\n",
        b"label, wait\n",
        b"label;wait\n",
        b"wait,label\n",
        b"label,waits\n",
        b"\xEF\xBB\xBFlabel,wait\n",
        b"1,10\n",
        b"\nlabel,wait\n",
        NAMES,
    ];
    let mut files = Vec::new();
    for text in texts {
        for rest in [&b""[..], b"1,10\n", b"0,1\n", b"x"] {
            // What stands behind no names at all, or behind their cut line, is line 1 too.
            files.push(([text, rest].concat(), Err((15, 1))));
        }
    }
    files.push((WAIT_NAMES.to_vec(), Ok(0)));
    files.push(([WAIT_NAMES, WAIT_NAMES].concat(), Err((15, 2))));
    on_two_cues(checker, files);
}

/// A last line without its line feed, an empty line, a carriage return, a byte behind the end.
fn ends(checker: &mut Checker) {
    let texts: [(&[u8], Known); 12] = [
        (b"1,10\n", Ok(10)),
        (b"1,10", Err((15, 2))),
        (b"1,1", Err((15, 2))),
        (b"1,", Err((15, 2))),
        (b"1", Err((15, 2))),
        (b"1,10\n2,25", Err((15, 3))),
        (b"1,10\n\n", Err((15, 3))),
        (b"\n1,10\n", Err((15, 2))),
        (b"1,10\n\n2,25\n", Err((15, 3))),
        (b"1,10\r\n", Err((15, 2))),
        (b"1,10\n\0", Err((15, 3))),
        (b"1,10\n2,25\n ", Err((15, 4))),
    ];
    let files = texts.map(|(text, result)| ([WAIT_NAMES, text].concat(), result));
    on_two_cues(checker, files.into());
}

/// Every small change of two files, as the naive tool has it.
fn near(checker: &mut Checker) {
    let base = file_of(&["1,10", "2,00025", "254,6000"]);
    let mut asked = Subjected::new(checker, Input::Rows(known::ring()));
    for waits in edges::near_files(&base).into_iter().chain(edges::near_files(b"label,wait\n9,9\n"))
    {
        asked.ask(Question::Quickest { s: 4, t: 3, waits, room: WORK });
    }
}

/// A wait file may have any length; more than 254 lines of it are never lawful.
fn long(checker: &mut Checker) {
    let all = every(7);
    let padded: Vec<String> = (1..=FOLLOWED).map(|label| format!("{label:05},00007")).collect();
    let mut files = vec![(all.clone(), Ok(7)), (file_of(&padded), Ok(7))];
    files.push(([&all[..], b"254,7\n"].concat(), Err((17, 256))));
    files.push(([&all[..], b"255,7\n"].concat(), Err((16, 256))));
    files.push(([&all[..], b"x\n"].concat(), Err((15, 256))));
    for many in [65_534, 65_535, 65_536, 100_000] {
        let lines = b"1,1\n".repeat(many);
        let with = |line: &[u8]| [WAIT_NAMES, &lines, line].concat();
        assert!(lines.len() > BYTES);
        files.push((with(b""), Err((17, 3))));
        files.push((with(b"1,6001\n"), Err((16, many + 2))));
        files.push((with(b"0,1\n"), Err((16, many + 2))));
        files.push((with(b"1,6001\n1,1"), Err((15, many + 3))));
        files.push((with(b"1,65536\n"), Err((15, many + 2))));
        files.push((with(b"1"), Err((15, many + 2))));
    }
    files.push(([WAIT_NAMES, &vec![b'1'; 1_000_000]].concat(), Err((15, 2))));
    on_two_cues(checker, files);
}

/// 4 to 10 of the rows come first, then 11, then 12, then the wait file, also where s is t.
fn before(checker: &mut Checker) {
    let broken: [&[u8]; 4] = [b"", b"label,wait\n0,1\n", b"label,wait\n2,1\n1,1\n", WAIT_NAMES];
    let shows =
        [known::ring(), known::ring()[..98].to_vec(), known::tower(32), Vec::new(), vec![0; 11]];
    for rows in shows {
        let mut asked = Subjected::new(checker, Input::Rows(rows));
        for waits in broken {
            for (s, t) in [(1, 2), (3, 3), (0, 1), (1, 0), (6, 6), (u32::MAX, 1), (0, 6)] {
                for (room, given) in [(WORK, 3), (WORK - 1, 3), (WORK, 2), (0, 0), (WORK + 9, 4)] {
                    let waits = waits.to_vec();
                    asked.ask_given(Question::Quickest { s, t, waits, room }, given);
                }
            }
        }
    }
}

/// The first 16,384 numbers become 0, and no other changes.
fn areas(checker: &mut Checker) {
    let mut asked = Subjected::new(checker, Input::Rows(known::ring()));
    for room in [0, 1, WORK / 2, WORK - 1, WORK, WORK + 1, WORK + 1000, 3 * WORK] {
        for given in [0, 1, 2, 3, 4, 9] {
            asked.ask_given(question(4, 3, &ring_waits()).with_room(room), given);
        }
    }
    let mut asked = Subjected::new(checker, Input::Rows(edges::many_blocks(128)));
    asked.ask(question(1, 1, WAIT_NAMES));
    let mut asked = Subjected::new(checker, Input::Rows(known::dense()));
    asked.ask(question(1, 8, &every(3)));
}
