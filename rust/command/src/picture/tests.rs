//! The pictures of the ring, where cues stand, what is dashed, and what is not drawn.

use second::gen::prng::Prng;
use second::gen::{known, notes, random};
use second::naive::ask::Show;
use second::naive::check::Link;
use second::naive::file::print;
use show::{Loaded, Rows, ROWS_LEN};

use super::{blocks, unfolded, Undrawn};
use crate::waits::Waits;

const RING_BLOCKS: &str = include_str!("ring-blocks.dot");
const RING_UNFOLDED: &str = include_str!("ring-unfolded.dot");

/// What is said of a show that the library has read.
fn of<T>(numbers: &[u32], said: impl FnOnce(&Loaded) -> T) -> T {
    let mut room = [0; ROWS_LEN];
    said(&Rows::read(&print(numbers.as_chunks().0), &mut room).expect("an accepted show"))
}

/// Shows that can be drawn unfolded.
fn shows() -> Vec<Vec<u32>> {
    let mut shows = vec![
        known::ring(),
        known::long_ring(6),
        known::tower(9),
        known::deep(true),
        known::star(7, false),
        known::all_joins(),
        known::labelled(300),
    ];
    shows.extend((0..200).map(|case| {
        let prng = &mut Prng::new(31, case);
        let shape = prng.pick(&random::SHAPES);
        random::show(prng, shape)
    }));
    shows
}

fn drawn(numbers: &[u32]) -> String {
    of(numbers, |show| unfolded("show", show, None)).expect("a picture")
}

/// The frame that each cue stands in, innermost, by the cue's number.
fn frames(picture: &str) -> Vec<(u32, String)> {
    let (mut open, mut cues) = (Vec::new(), Vec::new());
    for line in picture.lines().map(str::trim) {
        if let Some(head) = line.strip_prefix("subgraph cluster_") {
            open.push(head.trim_end_matches(" {").to_string());
        } else if line == "}" {
            open.pop();
        } else if let Some(Ok(cue)) = line.strip_suffix(';').map(str::parse) {
            cues.push((cue, open[open.len() - 1].clone()));
        }
    }
    cues.sort();
    cues
}

/// The frame of the copy that owns each cue, by the naive tool.
fn owners(numbers: &[u32]) -> Vec<(u32, String)> {
    let show = Show::of_rows(numbers).expect("an accepted show");
    let name = |path: &[u32]| match path {
        [] => "show".to_string(),
        _ => path.iter().map(u32::to_string).collect::<Vec<_>>().join("_"),
    };
    (1..).zip(&show.unfolding().cues).map(|(cue, at)| (cue, name(&at.path))).collect()
}

/// The frames, cues, uses and lines of a picture, as they are called in its SVG.
fn names(picture: &str) -> Vec<String> {
    let named = |line: &str| {
        let line = line.trim();
        let frame = line.strip_prefix("subgraph ").map(|head| head.trim_end_matches(" {"));
        let node = line.split_once(" [").map_or(line.strip_suffix(';'), |(node, _)| Some(node));
        let look = ["graph", "node", "edge"].contains(&node.unwrap_or_default());
        let plain = node.filter(|node| !look && !node.contains('='));
        frame.or(plain).map(|name| name.replace(" -> ", "&#45;&gt;"))
    };
    picture.lines().filter_map(named).collect()
}

#[test]
fn the_blocks_of_the_ring_are_drawn() {
    assert_eq!(of(&known::ring(), |ring| blocks("ring", ring, None)), RING_BLOCKS);
}

#[test]
fn the_ring_is_drawn_unfolded() {
    assert_eq!(
        of(&known::ring(), |ring| unfolded("ring", ring, None)).as_deref(),
        Ok(RING_UNFOLDED)
    );
    let frames = frames(RING_UNFOLDED);
    let expected = [(1, "show"), (2, "show"), (3, "1"), (4, "1_1"), (5, "1_2")];
    assert_eq!(frames, expected.map(|(cue, frame)| (cue, frame.to_string())));
}

#[test]
fn the_stored_pictures_are_those_of_the_ring() {
    let stored = [
        (RING_BLOCKS, include_str!("../../../../docs/ring-blocks.svg"), 3 + 8 + 3 + 9),
        (RING_UNFOLDED, include_str!("../../../../docs/ring-unfolded.svg"), 4 + 5 + 5),
    ];
    for (picture, svg, count) in stored {
        let names = names(picture);
        assert_eq!(names.len(), count);
        for name in names {
            assert!(svg.contains(&format!("<title>{name}</title>")), "{name}");
        }
        // One more for the whole.
        assert_eq!(svg.matches("<title>").count(), count + 1);
    }
}

/// The links of a picture, as they are drawn.
fn arrows(picture: &str) -> Vec<String> {
    picture.lines().map(str::trim).filter(|line| line.contains(" -> ")).map(String::from).collect()
}

#[test]
fn every_link_is_drawn_with_its_label() {
    for rows in shows() {
        let show = Show::of_rows(&rows).expect("an accepted show");
        let links = show.unfolding().links.iter();
        let expected: Vec<String> =
            links.map(|link| format!("{} -> {} {}", link.from, link.to, look(link))).collect();
        assert_eq!(arrows(&drawn(&rows)), expected);
    }
}

/// How a link is drawn.
fn look(link: &Link) -> String {
    let dashed = if link.is_followed() { "" } else { ", style=dashed" };
    format!("[label=\"{}\"{dashed}];", link.label)
}

#[test]
fn every_link_of_a_block_is_drawn_with_its_label() {
    for rows in shows() {
        let show = Show::of_rows(&rows).expect("an accepted show");
        let mut expected = Vec::new();
        for (block, k) in show.blocks.iter().zip(0..) {
            let drawn =
                |link: &Link| format!("b{k}c{} -> b{k}c{} {}", link.from, link.to, look(link));
            expected.extend(block.links.iter().map(drawn));
        }
        let mut arrows = arrows(&of(&rows, |show| blocks("show", show, None)));
        arrows.retain(|line| !line.contains("dir=none"));
        assert_eq!(arrows, expected);
    }
}

/// The picture of the ring with a note in the place of its link from 2 to 1: that arrow is dashed,
/// and a line more says what that means.
fn with_note(picture: &str, end: &str) -> String {
    let arrow = |look: &str| format!(" -> {end} [{look}];");
    let line = "dashed arrow: note, which is not followed<BR ALIGN=\"LEFT\"/>";
    let noted = picture.replace(&arrow("label=\"2\""), &arrow("label=\"255\", style=dashed"));
    noted.replace("<BR ALIGN=\"LEFT\"/>>;", &format!("<BR ALIGN=\"LEFT\"/>{line}>;"))
}

#[test]
fn a_note_of_the_ring_is_dashed() {
    let noted = known::ring_back(2, notes::NOTE);
    assert_eq!(of(&noted, |ring| blocks("ring", ring, None)), with_note(RING_BLOCKS, "b2c1"));
    let unfolded = of(&noted, |ring| unfolded("ring", ring, None));
    assert_eq!(unfolded, Ok(with_note(RING_UNFOLDED, "1")));
    let followed = of(&known::ring_back(2, notes::NOTE - 1), |ring| blocks("ring", ring, None));
    assert_eq!(followed, RING_BLOCKS.replace("-> b2c1 [label=\"2\"]", "-> b2c1 [label=\"254\"]"));
}

/// The picture of the ring with the waits of its labels, and a line more that says what they are.
fn with_waits(picture: &str) -> String {
    let line = "behind a label: its wait in seconds<BR ALIGN=\"LEFT\"/>";
    let waits = picture.replace("label=\"1\"];", "label=\"1, 1.0 s\"];");
    let waits = waits.replace("label=\"2\"];", "label=\"2, 0.0 s\"];");
    waits.replace("<BR ALIGN=\"LEFT\"/>>;", &format!("<BR ALIGN=\"LEFT\"/>{line}>;"))
}

#[test]
fn the_waits_of_the_ring_are_drawn() {
    let waits = Waits::of_file(b"label,wait\n1,10\n").expect("a wait file");
    let ring = known::ring();
    let drawn = of(&ring, |ring| blocks("ring", ring, Some(&waits)));
    assert_eq!(drawn, arrows_alone(RING_BLOCKS, &with_waits(RING_BLOCKS)));
    let drawn = of(&ring, |ring| unfolded("ring", ring, Some(&waits)));
    assert_eq!(drawn, Ok(with_waits(RING_UNFOLDED)));
}

/// The changed lines that are arrows or the title, and the others as they were: an own cue may be called 1
/// or 2, too.
fn arrows_alone(picture: &str, changed: &str) -> String {
    let lines = picture.lines().zip(changed.lines());
    let line = |(line, changed): (&str, &str)| match line.contains(" -> ") || line.contains("<FONT")
    {
        true => format!("{changed}\n"),
        false => format!("{line}\n"),
    };
    lines.map(line).collect()
}

#[test]
fn every_link_is_drawn_with_the_wait_of_its_label() {
    for (rows, case) in shows().iter().zip(0..) {
        let file = second::gen::waits::lawful(&mut Prng::new(32, case));
        let known = second::naive::waits::Waits::of_file(&file).expect("a wait file");
        let waits = Waits::of_file(&file).expect("a wait file");
        let show = Show::of_rows(rows).expect("an accepted show");
        let look = |link: &Link| match link.is_followed() {
            true => {
                let tenths = known.of(link.label);
                format!("[label=\"{}, {}.{} s\"];", link.label, tenths / 10, tenths % 10)
            }
            false => format!("[label=\"{}\", style=dashed];", link.label),
        };
        let links = show.unfolding().links.iter();
        let expected: Vec<String> =
            links.map(|link| format!("{} -> {} {}", link.from, link.to, look(link))).collect();
        let drawn = of(rows, |show| unfolded("show", show, Some(&waits))).expect("a picture");
        assert_eq!(arrows(&drawn), expected);
        assert_eq!(drawn.matches("behind a label: its wait in seconds").count(), 1);
    }
}

#[test]
fn a_note_has_no_wait() {
    let waits = Waits::of_file(b"label,wait\n1,10\n254,6000\n").expect("a wait file");
    assert_eq!(
        [0, 1, 2, 254, 255, 256].map(|label| waits.of(label)),
        [None, Some(10), Some(0), Some(6000), None, None]
    );
    let noted = of(&known::ring_back(2, notes::NOTE), |ring| blocks("ring", ring, Some(&waits)));
    assert!(noted.contains("b2c2 -> b2c1 [label=\"255\", style=dashed];"));
}

#[test]
fn every_cue_stands_in_its_copy() {
    for rows in shows() {
        assert_eq!(frames(&drawn(&rows)), owners(&rows));
    }
}

#[test]
fn a_copy_without_cues_has_no_frame() {
    let picture = drawn(&known::knot());
    assert_eq!(picture.matches("subgraph").count(), 1);
    assert_eq!(picture.matches(" -> ").count(), 1);
}

#[test]
fn a_title_is_written_out() {
    let picture = of(&known::ring(), |ring| blocks("1 < 2 & 3", ring, None));
    assert!(picture.contains(">1 &lt; 2 &amp; 3: the blocks<"));
}

#[test]
fn large_shows_are_not_drawn_unfolded() {
    let too_large = |said: &str| Err(Undrawn::TooLarge(said.to_string()));
    assert!(of(&known::tower(10), |show| blocks("", show, None))
        .contains("block 9, the show: total 1023"));
    let said = "1,023 cues are too many to draw; at most 1,000 are drawn";
    assert_eq!(of(&known::tower(10), |show| unfolded("", show, None)), too_large(said));
    let said = "the links are too many to draw; at most 10,000 are drawn";
    assert_eq!(of(&known::millions(), |show| unfolded("", show, None)), too_large(said));
}
