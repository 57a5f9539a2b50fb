//! The blocks of a show side by side: own cues and joins, links, and uses as boxes that
//! meet the cues they name.

use super::dot::{raised, Picture};
use crate::blocks::{Block, Use};
use crate::waits::Waits;

/// What the shapes mean.
const KEY: [&str; 2] = [
    "circle: own cue; double circle: join; arrow: link with its label",
    "box: use, with the cues that the joins of the used block meet",
];

/// The line from a use to a cue.
const MEETING: &str = "fontsize=10, dir=none, style=dashed, color=\"#707070\", weight=4";

/// One frame for each block.
pub fn drawn(name: &str, blocks: &[Block], waits: Option<&Waits>) -> String {
    let links = blocks.iter().flat_map(|block| &block.links);
    let mut picture = Picture::new(&format!("{name}: the blocks"), &KEY, links, waits);
    for (block, k) in blocks.iter().zip(0..) {
        let show = if k + 1 == blocks.len() { ", the show" } else { "" };
        picture.frame(&k.to_string(), &format!("block {k}{show}: total {}", block.total));
        cues(&mut picture, block, k);
        for link in &block.links {
            picture.arrow(link, |number| cue(k, number));
        }
        for (taken, step) in block.uses.iter().zip(1..) {
            meeting(&mut picture, taken, k, step);
        }
        picture.end_frame();
    }
    picture.text()
}

/// The node of a cue in block k.
fn cue(k: usize, cue: u32) -> String {
    format!("b{k}c{cue}")
}

fn cues(picture: &mut Picture, block: &Block, k: usize) {
    for own in 1..=block.own {
        picture.line(&format!("{} [label=\"{own}\"];", cue(k, own)));
    }
    for join in 1..=block.joins {
        let number = block.own + join;
        let look = format!("label=\"{number}\\njoin {join}\", shape=doublecircle, margin=0");
        picture.line(&format!("{} [{look}];", cue(k, number)));
    }
}

/// A use stands behind the first cue it names and before the others.
fn meeting(picture: &mut Picture, taken: &Use, k: usize, step: usize) {
    let node = format!("b{k}u{step}");
    let label = format!("use {step}\\nblock {}", taken.block);
    picture.line(&format!("{node} [label=\"{label}\", shape=box];"));
    for (met, join) in taken.cues.iter().zip(1..) {
        let met = cue(k, *met);
        let [left, right] = if join == 1 { [&met, &node] } else { [&node, &met] };
        let label = raised(&format!("join {join}"));
        picture.line(&format!("{left} -> {right} [label={label}, {MEETING}];"));
    }
}
