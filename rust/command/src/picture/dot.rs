//! Lines of Graphviz text, set in by how deep they stand.

use crate::blocks::Link;
use crate::waits::Waits;
use crate::words::Seconds;

/// What all pictures have in common: rows from left to right, round cues.
const LOOK: [&str; 4] = [
    "graph [rankdir=LR, newrank=true, labelloc=t, labeljust=l, nodesep=0.35, bgcolor=white];",
    "graph [fontname=\"Helvetica\", style=\"rounded,filled\", color=\"#8c8c8c\"];",
    "node [fontname=\"Helvetica\", fontsize=12, shape=circle, style=filled, fillcolor=white];",
    "edge [fontname=\"Helvetica\", fontsize=11];",
];

/// The end of a line that begins at the left.
const END: &str = "<BR ALIGN=\"LEFT\"/>";

/// What a dashed arrow means; said only where there is one.
const NOTE: &str = "dashed arrow: note, which is not followed";

/// What stands behind a label; said only where something does.
const WAIT: &str = "behind a label: its wait in seconds";

/// The grounds of frames, the next one for each frame inside another.
const GROUNDS: [&str; 3] = ["#f4f1ea", "#e6edf5", "#e9f3e6"];

/// A picture in the making.
pub struct Picture<'a> {
    text: String,
    depth: usize,
    waits: Option<&'a Waits>,
}

impl<'w> Picture<'w> {
    /// An empty picture with its title and what its shapes mean. Nothing is said of notes if none of
    /// its links is one.
    pub fn new<'a>(
        title: &str,
        key: &[&str],
        links: impl IntoIterator<Item = &'a Link>,
        waits: Option<&'w Waits>,
    ) -> Picture<'w> {
        let mut picture = Picture { text: String::new(), depth: 0, waits };
        picture.open("digraph");
        LOOK.iter().for_each(|line| picture.line(line));
        let head = format!("<FONT POINT-SIZE=\"16\">{}</FONT>{END}", escaped(title));
        let note = links.into_iter().any(Link::is_note).then_some(&NOTE);
        let lines = key.iter().chain(waits.map(|_| &WAIT)).chain(note);
        let rest: String = lines.map(|line| format!("{line}{END}")).collect();
        picture.line(&format!("fontsize=12; label=<{head}{rest}>;"));
        picture
    }

    /// Adds a line.
    pub fn line(&mut self, line: &str) {
        self.text.push_str(&"  ".repeat(self.depth));
        self.text.push_str(line);
        self.text.push('\n');
    }

    /// Adds a link with its label, and with its wait where waits are drawn, between two cues that are
    /// called so. That of a note is dashed; a note has no wait.
    pub fn arrow(&mut self, link: &Link, called: impl Fn(u32) -> String) {
        let (from, to) = (called(link.from), called(link.to));
        let dashed = if link.is_note() { ", style=dashed" } else { "" };
        let wait = self.waits.and_then(|waits| waits.of(link.label));
        let wait = wait.map_or(String::new(), |tenths| format!(", {} s", Seconds(tenths)));
        self.line(&format!("{from} -> {to} [label=\"{}{wait}\"{dashed}];", link.label));
    }

    /// Opens a frame around what follows.
    pub fn frame(&mut self, name: &str, label: &str) {
        let ground = GROUNDS[(self.depth - 1) % GROUNDS.len()];
        self.open(&format!("subgraph cluster_{name}"));
        self.line(&format!("fontsize=12; label=\"{label}\"; fillcolor=\"{ground}\";"));
    }

    /// Ends the frame opened last.
    pub fn end_frame(&mut self) {
        self.depth -= 1;
        self.line("}");
    }

    /// The finished text.
    pub fn text(mut self) -> String {
        self.end_frame();
        self.text
    }

    fn open(&mut self, head: &str) {
        self.line(&format!("{head} {{"));
        self.depth += 1;
    }
}

/// A label that keeps clear of the line below it.
pub fn raised(label: &str) -> String {
    format!("<{label}<BR/><FONT POINT-SIZE=\"3\"> </FONT>>")
}

/// A text with the signs that mean something in a label written out.
fn escaped(text: &str) -> String {
    text.replace('&', "&amp;").replace('<', "&lt;").replace('>', "&gt;")
}
