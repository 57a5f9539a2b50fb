//! The cases of the specification, for the naive tool.

mod desk;
mod notes;
mod waits;

use super::ask::Show;
use super::behind::origins;
use super::print::printed;
use crate::gen::{behind, known};
use crate::limits::{Refusal, NAMES, PATH, WORK};
use crate::question::{Answer, Question};

fn file(lines: &[&str]) -> Vec<u8> {
    let mut file = NAMES.to_vec();
    for line in lines {
        file.extend(line.bytes());
        file.push(b'\n');
    }
    file
}

fn show(numbers: &[u32]) -> Show {
    Show::of_rows(numbers).expect("an accepted show")
}

fn refused(numbers: &[u32]) -> Option<(u32, u32)> {
    Show::of_rows(numbers).err().map(|refusal| (refusal.number, refusal.place))
}

fn given(show: &Show, question: Question) -> Vec<u32> {
    show.answer(&question, 3).expect("an answer").given
}

fn fewest(show: &Show, s: u32, t: u32) -> Vec<u32> {
    given(show, Question::Fewest { s, t, room: WORK })
}

fn list_out(show: &Show, v: u32, n: u32) -> Answer {
    let question = Question::List { outward: true, v, n, room: 10 };
    show.answer(&question, 3).expect("an answer")
}

fn located(show: &Show, n: u32) -> Result<Answer, Refusal> {
    show.answer(&Question::Locate { n, room: PATH }, 3)
}

fn row(show: &Show, s: u32, t: u32) -> Result<Answer, Refusal> {
    show.answer(&Question::Row { s, t, room: PATH }, 3)
}

fn found(row: u32, path: &[u32]) -> Result<Answer, Refusal> {
    Ok(Answer::with_numbers(&[row, path.len() as u32], path))
}

#[test]
fn the_ring_is_printed() {
    let text = printed(&crate::naive::file::print(known::ring().as_chunks().0));
    assert_eq!(text, "from,to,label\n1,5,1\n2,1,2\n3,4,1\n4,2,1\n5,3,1\n");
}

#[test]
fn the_ring_has_five_cues() {
    let ring = show(&known::ring());
    let totals: Vec<u64> = ring.blocks.iter().map(|block| block.total).collect();
    assert_eq!(totals, [1, 3, 5]);
    assert_eq!(given(&ring, Question::Count), [5]);
}

#[test]
fn cues_of_the_ring_are_located_and_numbered() {
    let ring = show(&known::ring());
    assert_eq!(located(&ring, 5), Ok(Answer::with_numbers(&[2, 0, 1], &[1, 2])));
    assert_eq!(located(&ring, 3), Ok(Answer::with_numbers(&[1, 1, 1], &[1])));
    assert_eq!(located(&ring, 1), Ok(Answer::given(&[0, 2, 1])));
    assert_eq!(located(&ring, 6), Err(Refusal::new(12, 0)));
    assert_eq!(located(&ring, 0), Err(Refusal::new(12, 0)));
    assert_eq!(given(&ring, Question::Number { path: vec![1, 2], own: 1 }), [5]);
    for (path, own) in [(vec![1, 3], 1), (vec![0], 1), (vec![], 3), (vec![1; 128], 1)] {
        let asked = ring.answer(&Question::Number { path, own }, 3);
        assert_eq!(asked, Err(Refusal::new(13, 0)));
    }
}

#[test]
fn fewest_in_the_ring() {
    let ring = show(&known::ring());
    assert_eq!(fewest(&ring, 1, 2), [1, 4]);
    assert_eq!(fewest(&ring, 2, 1), [1, 1]);
    assert_eq!(fewest(&ring, 1, 1), [1, 0]);
    assert_eq!(fewest(&ring, 4, 3), [1, 4]);
    let none = u32::MAX;
    assert_eq!(ring.work()[..10], [0, 2, none, none, none, none, none, none, none, 0]);
    assert_eq!(ring.work()[64..66], [0, 4]);
    assert_eq!(ring.work()[128..192], [none; 64]);
    assert_eq!(ring.work()[192..], [0; WORK - 192]);
}

#[test]
fn lists_of_the_ring() {
    let ring = show(&known::ring());
    assert_eq!(list_out(&ring, 4, 0), Answer::with_numbers(&[1, 0], &[2]));
    assert_eq!(list_out(&ring, 4, 2), Answer::given(&[0, 0]));
    let empty_page = Question::List { outward: false, v: 4, n: 0, room: 0 };
    assert_eq!(given(&ring, empty_page), [0, 1]);
}

#[test]
fn rows_of_the_ring() {
    let ring = show(&known::ring());
    assert_eq!(row(&ring, 2, 1), found(8, &[]));
    assert_eq!(row(&ring, 4, 2), found(2, &[1, 1]));
    assert_eq!(row(&ring, 3, 4), found(3, &[1, 1]));
    assert_eq!(row(&ring, 5, 3), found(2, &[1, 2]));
    assert_eq!(row(&ring, 1, 5), found(3, &[1, 2]));
    for (s, t, refusal) in [(1, 2, 14), (1, 1, 14), (6, 1, 12), (1, 0, 12), (0, 6, 12)] {
        assert_eq!(row(&ring, s, t), Err(Refusal::new(refusal, 0)));
    }
    for (room, given) in [(PATH - 1, 3), (PATH, 2), (0, 0)] {
        let asked = ring.answer(&Question::Row { s: 6, t: 1, room }, given);
        assert_eq!(asked, Err(Refusal::new(11, 0)));
    }
}

#[test]
fn the_shortest_path_then_the_first_then_the_first_row() {
    let detour = show(&behind::detour());
    let all = origins(&detour.blocks, 1, 2);
    let paths: Vec<&[u32]> = all.iter().map(|origin| &origin.path[..]).collect();
    assert_eq!(paths, [&[1, 2][..], &[1, 1, 1]]);
    assert_eq!(row(&detour, 1, 2), found(6, &[1, 2]));
    assert_eq!(row(&show(&behind::several_labels()), 1, 2), found(2, &[1]));
    assert_eq!(row(&show(&behind::several_labels()), 2, 1), found(10, &[]));
    assert_eq!(row(&show(&behind::short_cuts()), 1, 2), found(2, &[2, 2, 2, 2, 2, 2, 1]));
    let mut back = [1; PATH];
    back[PATH - 1] = 2;
    assert_eq!(row(&show(&behind::turned_knot()), 2, 1), found(2, &back));
    assert_eq!(row(&show(&behind::half_way()), 1, 2), found(2, &[1; PATH]));
    assert_eq!(row(&show(&known::knot()), 1, 2), found(2, &[1; PATH]));
}

#[test]
fn one_opening_row() {
    assert_eq!(given(&show(&[0, 0, 0, 1, 0, 0, 0, 0, 0, 0, 0]), Question::Count), [1]);
    assert_eq!(refused(&[0; 11]), Some((9, 1)));
}

#[test]
fn the_tower() {
    assert_eq!(show(&known::tower(31)).count(), 2_147_483_647);
    assert_eq!(refused(&known::tower(32)), Some((10, 92)));
    let text = printed(&super::file::print(known::tower(31).as_chunks().0));
    assert_eq!(text, "cues\n2147483647\n");
    let small = show(&known::tower(5));
    let last = located(&small, small.count());
    assert_eq!(last, Ok(Answer::with_numbers(&[4, 0, 1], &[2; 4])));
}

#[test]
fn the_knot() {
    let knot = show(&known::knot());
    assert_eq!(knot.count(), 2);
    assert_eq!(fewest(&knot, 1, 2), [1, 1]);
    assert_eq!(fewest(&knot, 2, 1), [0, 0]);
    let text = printed(&super::file::print(&knot.rows));
    assert_eq!(text, "from,to,label\n1,2,1\n");
}

#[test]
fn the_long_ring() {
    assert_eq!(show(&known::long_ring(30)).count(), 1_073_741_825);
    let shorter = show(&known::long_ring(8));
    assert_eq!(fewest(&shorter, 1, 2), [1, 256]);
    assert_eq!(fewest(&shorter, 2, 1), [1, 1]);
}

#[test]
fn the_number_of_rows_and_joins() {
    assert_eq!(refused(&[]), Some((4, 0)));
    assert_eq!(refused(&[0; 12]), Some((4, 0)));
    assert_eq!(refused(&known::wide(1024)), None);
    assert_eq!(refused(&known::wide(1025)), Some((4, 0)));
    let show_row = [1, 0, 0, 1, 0, 0, 0, 0, 0, 0, 0];
    let joins = |joins: u32| [[0, 0, joins, 0, 0, 0, 0, 0, 0, 0, 0], show_row].concat();
    assert_eq!(refused(&joins(8)), None);
    assert_eq!(refused(&joins(9)), Some((6, 1)));
    assert_eq!(refused(&joins(0)), Some((9, 1)));
}

#[test]
fn the_other_named_shows_are_accepted() {
    let shows = [
        known::deep(true),
        known::deep(false),
        known::deep_join(),
        known::star(20, true),
        known::star(20, false),
        known::full(),
        known::all_joins(),
        known::trap_show(),
        known::dense(),
        known::five_blocks(),
        known::bad_order(),
    ];
    for rows in shows {
        assert_eq!(refused(&rows), None);
    }
    assert_eq!(known::dense().len(), 11 * 1024);
    assert_eq!(known::five_blocks().len(), 11 * 1024);
}

#[test]
fn refused_files() {
    let cases: [(&[u8], &str); 5] = [
        (b"", "2,1"),
        (NAMES, "4,0"),
        (&file(&["0,0,0,1,0,0,0,0,0,0"]), "3,2"),
        (&file(&["0,0,0,65536,0,0,0,0,0,0,0"]), "3,2"),
        (&file(&["0,0,0,0,0,0,0,0,0,0,0"]), "9,2"),
    ];
    for (file, expected) in cases {
        assert_eq!(printed(file), format!("refusal,place\n{expected}\n"));
    }
    assert_eq!(printed(&[b'x'; 65_537]), "refusal,place\n1,0\n");
    let mut lines = vec!["0,0,0,0,0,0,0,0,0,0,0"; 1500];
    assert_eq!(printed(&file(&lines)), "refusal,place\n4,0\n");
    lines[1398] = "0";
    assert_eq!(printed(&file(&lines)), "refusal,place\n3,1400\n");
}

/// What the naive tool says of a show of one row whose own cues are written so.
fn with_own(text: &str) -> Result<u32, (u32, u32)> {
    let show = Show::of_file(&file(&[&format!("0,0,0,{text},0,0,0,0,0,0,0")]));
    show.map(|show| show.count()).map_err(|refusal| (refusal.number, refusal.place))
}

#[test]
fn a_value_has_one_to_five_digits() {
    for text in ["7", "07", "007", "0007", "00007"] {
        assert_eq!(with_own(text), Ok(7));
    }
    assert_eq!(with_own("00255"), Ok(255));
    assert_eq!(with_own("00256"), Err((6, 2)));
    assert_eq!(with_own("65535"), Err((6, 2)));
    for zero in ["0", "00", "000", "0000", "00000"] {
        assert_eq!(with_own(zero), Err((9, 2)));
    }
}

#[test]
fn malformed_values() {
    let six = ["000000", "000001", "000255", "065535", "065536", "100000"];
    let large = ["65536", "65540", "70000", "99999"];
    let others =
        ["", "+7", "-7", "-0", " 7", "7 ", "+0007", " 0007", "0 007", "0x007", "7.0", "\u{667}"];
    for text in six.iter().chain(&large).chain(&others) {
        assert_eq!(with_own(text), Err((3, 2)), "{text:?}");
    }
}

#[test]
fn a_padded_file_is_written_without_padding() {
    let lines = "block,kind,label,a,b,c,d,e,f,g,h
00000,00000,00002,00001,00000,00000,00000,00000,00000,00000,00000
00000,00001,00001,00001,00003,00000,00000,00000,00000,00000,00000
00000,00001,00001,00002,00001,00000,00000,00000,00000,00000,00000
00001,00000,00002,00001,00000,00000,00000,00000,00000,00000,00000
00001,00002,00000,00001,00003,00000,00000,00000,00000,00000,00000
00001,00002,00000,00002,00001,00000,00000,00000,00000,00000,00000
00002,00000,00000,00002,00000,00000,00000,00000,00000,00000,00000
00002,00001,00002,00002,00001,00000,00000,00000,00000,00000,00000
00002,00002,00001,00001,00002,00000,00000,00000,00000,00000,00000
";
    let padded = Show::of_file(lines.as_bytes()).expect("the padded ring is read");
    assert_eq!(padded.rows.concat(), known::ring());
    let written = padded.answer(&Question::Write { room: 231 }, 3).expect("231 bytes are enough");
    assert_eq!(written.bytes, super::file::print(known::ring().as_chunks().0));
    assert_eq!(written.given, [231]);
}
