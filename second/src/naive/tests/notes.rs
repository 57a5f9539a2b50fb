//! Notes: no chain has one, lists, rows and the printed links show them.

use super::*;
use crate::gen::notes::{self, NOTE};
use crate::limits::{FOLLOWED, NO_CHAIN as N};

fn print_of(show: &Show) -> String {
    printed(&crate::naive::file::print(&show.rows))
}

/// The first numbers of a block's summary: those from join to join.
fn summary(show: &Show, block: usize, joins: usize) -> Vec<&[u32]> {
    show.work()[64 * block..].chunks(8).take(joins).map(|line| &line[..joins]).collect()
}

#[test]
fn labels_1_to_254_are_followed() {
    for (label, back, round) in [(1, [1, 1], [1, 4]), (254, [1, 1], [1, 4]), (255, [0, 0], [0, 0])]
    {
        let ring = show(&known::ring_back(2, label));
        assert_eq!((fewest(&ring, 2, 1), fewest(&ring, 4, 3)), (back.into(), round.into()));
        assert_eq!(fewest(&ring, 1, 2), [1, 4]);
        assert_eq!(fewest(&ring, 1, 1), [1, 0]);
        assert_eq!(ring.work(), show(&known::ring()).work());
        assert_eq!(list_out(&ring, 2, 0), Answer::with_numbers(&[1, 0], &[1]));
        assert_eq!(row(&ring, 2, 1), found(8, &[]));
        let text = format!("from,to,label\n1,5,1\n2,1,{label}\n3,4,1\n4,2,1\n5,3,1\n");
        assert_eq!(print_of(&ring), text);
    }
}

#[test]
fn a_note_closes_no_chain() {
    let (open, closed) = (show(&notes::closing(NOTE)), show(&notes::closing(FOLLOWED)));
    for (s, steps) in [(2, 1), (4, 2), (1, 3)] {
        assert_eq!(fewest(&open, s, 3), [0, 0]);
        assert_eq!(fewest(&closed, s, 3), [1, steps]);
    }
    assert_eq!(fewest(&open, 1, 2), [1, 2]);
}

#[test]
fn a_link_beside_a_note_counts() {
    let beside = show(&notes::beside());
    for (s, t) in [(1, 2), (2, 3), (3, 4)] {
        assert_eq!(fewest(&beside, s, t), [1, 1]);
    }
    assert_eq!(fewest(&beside, 1, 3), [1, 2]);
    assert_eq!(list_out(&beside, 1, 0), Answer::with_numbers(&[2, 0], &[2, 3]));
    let text = "from,to,label\n1,2,3\n1,2,255\n1,3,255\n2,3,1\n2,3,255\n3,4,254\n3,4,255\n";
    assert_eq!(print_of(&beside), text);
}

#[test]
fn a_show_of_notes_alone() {
    let ring = show(&notes::alone(known::ring()));
    for (s, t) in (1..=5).flat_map(|s| (1..=5).map(move |t| (s, t))) {
        assert_eq!(fewest(&ring, s, t), [u32::from(s == t), 0]);
    }
    for block in [0, 1] {
        assert_eq!(summary(&ring, block, 2), [[0, N], [N, 0]]);
    }
    let text = "from,to,label\n1,5,255\n2,1,255\n3,4,255\n4,2,255\n5,3,255\n";
    assert_eq!(print_of(&ring), text);
}

#[test]
fn summaries_have_no_notes() {
    let joins = show(&notes::between_joins());
    assert_eq!(summary(&joins, 0, 3), [[0, N, N], [N, 0, 1], [N, N, 0]]);
    assert_eq!(summary(&joins, 1, 3), [[0, N, N], [N, 0, N], [1, N, 0]]);
    assert_eq!(fewest(&joins, 5, 1), [1, 3]);
    assert_eq!(fewest(&joins, 1, 2), [0, 0]);
}
