//! The blocks that come with the desk, and the second way of reading.

use super::*;
use crate::gen::desk;
use crate::limits::{COLUMNS, DESK_ROWS, NO_CHAIN as N, OWN_ROWS, ROWS};
use crate::naive::desk::table;
use crate::naive::file::print;

/// The show of a file that is read the second way, or the refusal.
fn second_way(file: &[u8]) -> Result<Show, (u32, u32)> {
    Show::of_desk_file(file).map_err(|refusal| (refusal.number, refusal.place))
}

fn of_own(own: &[u32]) -> Result<Show, (u32, u32)> {
    second_way(&print(own.as_chunks().0))
}

fn refusal(lines: &[&str]) -> Option<(u32, u32)> {
    second_way(&file(lines)).err()
}

#[test]
fn the_table_has_sixteen_runs() {
    let rows = table();
    assert_eq!(rows.len(), DESK_ROWS);
    let first = [
        [0, 0, 2, 1, 0, 0, 0, 0, 0, 0, 0],
        [0, 1, 1, 1, 3, 0, 0, 0, 0, 0, 0],
        [0, 1, 1, 2, 1, 0, 0, 0, 0, 0, 0],
        [1, 0, 2, 2, 0, 0, 0, 0, 0, 0, 0],
        [1, 1, 1, 1, 2, 0, 0, 0, 0, 0, 0],
        [1, 1, 1, 2, 4, 0, 0, 0, 0, 0, 0],
        [1, 1, 1, 3, 1, 0, 0, 0, 0, 0, 0],
        [2, 0, 2, 3, 0, 0, 0, 0, 0, 0, 0],
    ];
    assert_eq!(rows[..8], first);
    assert_eq!(rows[150], [15, 0, 2, 16, 0, 0, 0, 0, 0, 0, 0]);
    assert_eq!(rows[151], [15, 1, 1, 1, 2, 0, 0, 0, 0, 0, 0]);
    assert_eq!(rows[165], [15, 1, 1, 15, 16, 0, 0, 0, 0, 0, 0]);
    assert_eq!(rows[166], [15, 1, 1, 16, 18, 0, 0, 0, 0, 0, 0]);
    assert_eq!(rows[167], [15, 1, 1, 17, 1, 0, 0, 0, 0, 0, 0]);
}

#[test]
fn a_run_leads_from_its_first_join_to_its_second() {
    for k in 0..16 {
        let show = of_own(&desk::run(k)).expect("a show on a run");
        assert_eq!(given(&show, Question::Count), [k + 3]);
        assert_eq!(fewest(&show, 1, 2), [1, k + 2]);
        assert_eq!(fewest(&show, 2, 1), [0, 0]);
        for (block, steps) in (0..16).zip(2..) {
            assert_eq!(show.work()[64 * block..64 * block + 2], [0, steps]);
            assert_eq!(show.work()[64 * block + 8..64 * block + 10], [N, 0]);
        }
    }
}

#[test]
fn the_first_row_opens_block_16() {
    let show = "16,0,0,1,0,0,0,0,0,0,0";
    assert_eq!(refusal(&[show]), None);
    let lawful_elsewhere = [
        "0,0,2,1,0,0,0,0,0,0,0",
        "15,0,2,1,0,0,0,0,0,0,0",
        "17,0,2,1,0,0,0,0,0,0,0",
        "15,1,1,18,1,0,0,0,0,0,0",
        "15,2,14,1,2,0,0,0,0,0,0",
        "16,1,1,1,2,0,0,0,0,0,0",
    ];
    for first in lawful_elsewhere {
        assert_eq!(refusal(&[first, show]), Some((5, 2)), "{first}");
    }
    assert_eq!(refusal(&[show, show]), Some((5, 3)));
}

#[test]
fn the_limits_count_the_blocks_of_the_desk() {
    let full = of_own(&desk::wide(OWN_ROWS)).expect("856 rows are read");
    let sizes =
        full.answer(&Question::Read { room: COLUMNS * ROWS }, 3).expect("room for all rows");
    assert_eq!(sizes.given, [1024, 17, 255]);
    let short = full.answer(&Question::Read { room: COLUMNS * ROWS - 1 }, 3);
    assert_eq!(short, Err(Refusal::new(11, 0)));
    assert_eq!(of_own(&desk::wide(OWN_ROWS + 1)).err(), Some((4, 0)));
    assert_eq!(refusal(&[]), Some((4, 0)));
    let blocks = |many: u32| {
        let joins = |k: u32| [16 + k, 0, u32::from(k + 1 < many), 1, 0, 0, 0, 0, 0, 0, 0];
        of_own(&(0..many).flat_map(joins).collect::<Vec<u32>>()).err()
    };
    assert_eq!((blocks(112), blocks(113)), (None, Some((5, 114))));
}

#[test]
fn places_are_lines_of_the_file() {
    assert_eq!(second_way(b"").err(), Some((2, 1)));
    assert_eq!(refusal(&["16,0,0,1,0,0,0,0,0,0"]), Some((3, 2)));
    assert_eq!(refusal(&["16,0,0,256,0,0,0,0,0,0,0"]), Some((6, 2)));
    let show = "16,0,0,2,0,0,0,0,0,0,0";
    assert_eq!(refusal(&[show, "16,2,16,1,2,0,0,0,0,0,0"]), Some((6, 3)));
    assert_eq!(refusal(&[show, "16,2,15,1,1,0,0,0,0,0,0"]), Some((7, 3)));
    let uses = ["16,2,15,1,2,0,0,0,0,0,0", "16,2,14,1,2,0,0,0,0,0,0"];
    assert_eq!(refusal(&[show, uses[0], uses[1]]), Some((8, 4)));
    assert_eq!(refusal(&["16,0,1,2,0,0,0,0,0,0,0"]), Some((9, 2)));
    assert_eq!(of_own(&desk::moved(&known::tower(32))).err(), Some((10, 93)));
}

#[test]
fn what_was_read_is_written_as_a_whole_file() {
    for own in [desk::desk_run(), desk::longest(), desk::wide(OWN_ROWS)] {
        let show = of_own(&own).expect("a show on the desk's blocks");
        let written = show.answer(&Question::Write { room: 65_536 }, 3).expect("room for the file");
        let again = Show::of_file(&written.bytes).expect("a whole file");
        assert_eq!(again.rows, show.rows);
        assert_eq!(written.given, [written.bytes.len() as u32]);
    }
}
