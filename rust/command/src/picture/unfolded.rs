//! The unfolded show: a frame for each copy, inside that of the copy whose use it fills.

use super::dot::Picture;
use crate::blocks::{Block, Link};
use crate::waits::Waits;

/// What the shapes mean.
const KEY: &str = "frame: copy with its path; circle: cue; arrow: link with its label";

/// Frames by the file, links as given.
pub fn drawn(name: &str, blocks: &[Block], links: &[Link], waits: Option<&Waits>) -> String {
    let picture = Picture::new(&format!("{name}: unfolded"), &[KEY], links, waits);
    let mut copies = Copies { blocks, picture, numbered: 0 };
    copies.put_in(blocks.len() - 1, &[]);
    let mut picture = copies.picture;
    for link in links {
        picture.arrow(link, |number| number.to_string());
    }
    picture.text()
}

/// Copies in the order of their cues.
struct Copies<'a> {
    blocks: &'a [Block],
    picture: Picture<'a>,
    numbered: u32,
}

impl Copies<'_> {
    /// A copy of block k: its own cues, then the copies for its uses. A copy without any
    /// cue has no frame.
    fn put_in(&mut self, k: usize, path: &[String]) {
        let block = &self.blocks[k];
        self.open(k, path);
        for _ in 0..block.own {
            self.numbered += 1;
            self.picture.line(&format!("{};", self.numbered));
        }
        for (taken, step) in block.uses.iter().zip(1u32..) {
            let inner = taken.block;
            if self.blocks[inner].total > 0 {
                self.put_in(inner, &[path, &[step.to_string()]].concat());
            }
        }
        self.picture.end_frame();
    }

    fn open(&mut self, k: usize, path: &[String]) {
        if path.is_empty() {
            self.picture.frame("show", &format!("the show: block {k}"));
        } else {
            let place = path.join(", ");
            self.picture.frame(&path.join("_"), &format!("path {place}: block {k}"));
        }
    }
}
