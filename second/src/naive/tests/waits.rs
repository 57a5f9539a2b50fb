//! Wait files, and the quickest way.

use super::*;
use crate::gen::notes::NOTE;
use crate::gen::waits::{detour, every, file_of, mixed, of};
use crate::limits::{WAIT, WAIT_NAMES};
use crate::naive::waits::Waits;

/// The sum of the quickest way from s to t, or none; the work area is checked.
fn quickest(show: &Show, waits: &[u8], s: u32, t: u32) -> Option<u64> {
    let question = Question::Quickest { s, t, waits: waits.to_vec(), room: WORK };
    let answer = show.answer(&question, 3).expect("an answer");
    assert_eq!((answer.wide, answer.numbers), (vec![0; WORK], vec![]));
    let [found, low, high] = answer.given[..] else { panic!("three numbers are given") };
    let sum = u64::from(high) << 32 | u64::from(low);
    assert!(found == 1 || (found == 0 && sum == 0));
    (found == 1).then_some(sum)
}

fn refusal(file: &[u8]) -> Option<(u32, u32)> {
    Waits::of_file(file).err().map(|refusal| (refusal.number, refusal.place))
}

#[test]
fn the_quickest_ways_of_the_ring() {
    let ring = show(&known::ring());
    let waits = of(&[(1, 10), (2, 25)]);
    let to = |t: u32| (1..=5).map(|s| quickest(&ring, &waits, s, t).expect("a way")).collect();
    let (to_2, to_3): (Vec<u64>, Vec<u64>) = (to(2), to(3));
    assert_eq!((to_2, to_3), (vec![40, 0, 20, 10, 30], vec![20, 45, 0, 55, 10]));
    let three = |waits: &[u8]| [(1, 2), (2, 1), (4, 3)].map(|(s, t)| quickest(&ring, waits, s, t));
    assert_eq!(three(&of(&[(1, 10)])), [40, 0, 30].map(Some));
    assert_eq!(three(WAIT_NAMES), [0, 0, 0].map(Some));
    assert_eq!(three(&every(WAIT)), [24_000, 6_000, 24_000].map(Some));
    let noted = show(&known::ring_back(2, NOTE));
    let pairs = [(1, 2), (2, 1), (4, 3), (3, 3)];
    let sums = pairs.map(|(s, t)| quickest(&noted, &waits, s, t));
    assert_eq!(sums, [Some(40), None, None, Some(0)]);
}

#[test]
fn the_quickest_way_may_have_more_links() {
    let detour = show(&detour());
    assert_eq!(quickest(&detour, &of(&[(1, 10), (3, 50)]), 1, 2), Some(20));
    assert_eq!(quickest(&detour, &of(&[(1, 26), (3, 50)]), 1, 2), Some(50));
    assert_eq!(fewest(&detour, 1, 2), [1, 1]);
}

/// A link counts as often as it is taken, and a sum has 64 bits.
#[test]
fn sums_of_the_long_ring() {
    let ring = show(&known::long_ring(10));
    let waits = every(WAIT);
    assert_eq!(quickest(&ring, &waits, 1, 2), Some(1024 * 6000));
    assert_eq!(quickest(&ring, &waits, 2, 1), Some(6000));
}

#[test]
fn the_waits_of_a_file() {
    let waits = Waits::of_file(b"label,wait\n00001,00010\n2,0\n254,6000\n").expect("a wait file");
    assert_eq!([1, 2, 3, 253, 254].map(|label| waits.of(label)), [10, 0, 0, 0, 6000]);
    assert_eq!(Waits::of_file(WAIT_NAMES), Ok(Waits::default()));
    assert_eq!(refusal(&every(WAIT)), None);
}

#[test]
fn refused_wait_files() {
    let cases: [(&[&str], (u32, u32)); 13] = [
        (&["1,6001", "1,1", "1"], (15, 4)),
        (&["2,1", "1,1", "1,6001"], (16, 4)),
        (&["2,1", "2,1"], (17, 3)),
        (&["1,65536"], (15, 2)),
        (&["1,65535"], (16, 2)),
        (&["65535,1"], (16, 2)),
        (&["0,1"], (16, 2)),
        (&["255,1"], (16, 2)),
        (&["1,000001"], (15, 2)),
        (&["1,1", ""], (15, 3)),
        (&["1,1\r"], (15, 2)),
        (&["1,1,1"], (15, 2)),
        (&["5,1", "7,1", "6,1", "5,1"], (17, 4)),
    ];
    for (lines, refused) in cases {
        assert_eq!(refusal(&file_of(lines)), Some(refused), "{lines:?}");
    }
    for names in ["", "label,wait", "label,wait\r\n", "label;wait\n", "\n", "1,1\n"] {
        assert_eq!(refusal(names.as_bytes()), Some((15, 1)), "{names:?}");
    }
    assert_eq!(refusal(b"label,wait\n1,10"), Some((15, 2)));
    for (file, refused) in mixed() {
        let refused = refused.map(|refusal| (refusal.number, refusal.place));
        assert_eq!(refusal(&file), refused, "{}", file.escape_ascii());
    }
}

#[test]
fn a_long_wait_file_is_read_to_its_end() {
    let mut file = [WAIT_NAMES, &b"1,1\n".repeat(100_000)].concat();
    assert_eq!(refusal(&file), Some((17, 3)));
    file.extend(b"1,6001\n");
    assert_eq!(refusal(&file), Some((16, 100_002)));
    file.extend(b"1,1");
    assert_eq!(refusal(&file), Some((15, 100_003)));
}

#[test]
fn a_line_that_32_bits_do_not_hold_is_told_as_the_largest_number() {
    let most = u64::from(u32::MAX);
    let told = [most - 1, most, most + 1, u64::MAX].map(|line| Refusal::at_line(15, line).place);
    assert_eq!(told, [u32::MAX - 1, u32::MAX, u32::MAX, u32::MAX]);
    assert_eq!(Refusal::at_line(15, most + 2).returned() >> 32, 15);
}

/// 11 comes before 12, and 12 before what is wrong with the wait file.
#[test]
fn the_order_of_refusals() {
    let ring = show(&known::ring());
    let refused = |s, t, waits: &[u8], room, given| {
        let question = Question::Quickest { s, t, waits: waits.to_vec(), room };
        ring.answer(&question, given).err().map(|refusal| (refusal.number, refusal.place))
    };
    assert_eq!(refused(0, 9, b"", WORK - 1, 3), Some((11, 0)));
    assert_eq!(refused(0, 9, b"", WORK, 2), Some((11, 0)));
    assert_eq!(refused(0, 1, b"", WORK, 3), Some((12, 0)));
    assert_eq!(refused(1, 6, b"", WORK, 3), Some((12, 0)));
    assert_eq!(refused(3, 3, b"", WORK, 3), Some((15, 1)));
    assert_eq!(refused(3, 3, b"label,wait\n0,0\n", WORK, 3), Some((16, 2)));
    assert_eq!(refused(3, 3, WAIT_NAMES, WORK, 3), None);
}

/// The quickest way is none exactly where there is no chain.
#[test]
fn there_is_a_quickest_way_where_there_are_fewest_steps() {
    use crate::gen::prng::Prng;
    use crate::gen::{random, waits};
    let mut counts = [0; 2];
    for (shape, case) in random::SHAPES.iter().cycle().zip(0..400) {
        let prng = &mut Prng::new(53, case);
        let show = show(&random::show(prng, shape));
        let waits = waits::lawful(prng);
        for (s, t) in (1..=show.count()).flat_map(|s| (1..=show.count()).map(move |t| (s, t))) {
            let (steps, sum) = (fewest(&show, s, t), quickest(&show, &waits, s, t));
            assert_eq!(steps[0] == 1, sum.is_some());
            assert!(s != t || sum == Some(0));
            assert!(sum.is_none_or(|sum| sum <= u64::from(steps[1]) * u64::from(WAIT)));
            counts[usize::from(sum.is_some())] += 1;
        }
    }
    assert!(counts.iter().all(|count| *count > 2000), "none, and some: {counts:?}");
}
