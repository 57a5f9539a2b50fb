//! The links of an unfolded show, with their labels.
//!
//! The library lists the cues that follow on from a cue, whatever the labels of the links. So it is
//! asked once for each label, on the rows without the links of every other label. Those rows are
//! accepted where all rows are: an opening and a use stay as they are, and links that rise still do
//! when some are left out. Cues keep their numbers, since a link numbers nothing. The links of the
//! unfolded rows are then those of the whole show that have this label, and every one of them is an
//! answer of the library.

use std::collections::BTreeSet;

use show::{Refused, Rows};

use crate::blocks::{Link, Row, LINK};

/// With more cues the links are not listed.
pub const MOST_CUES: u32 = 1000;

/// The links of an accepted show of at most [`MOST_CUES`] cues, listed cue by cue.
pub struct Labelled {
    /// Each label in use, with the rows that are not links of another.
    kept: Vec<(u32, Vec<u32>)>,
    /// Room for all cues of the show.
    page: Vec<u32>,
}

impl Labelled {
    /// The links of these rows, which have so many cues.
    pub fn new(rows: &[Row], cues: u32) -> Labelled {
        let links = rows.iter().filter(|row| row[1] == LINK);
        let labels: BTreeSet<u32> = links.map(|row| row[2]).collect();
        let kept = labels.into_iter().map(|label| (label, with_label(rows, label))).collect();
        Labelled { kept, page: vec![0; cues as usize] }
    }

    /// The links from a cue, rising by the cue that follows on and by label.
    pub fn from(&mut self, from: u32) -> Result<Vec<Link>, Refused> {
        let mut links = Vec::new();
        for (label, rows) in &self.kept {
            // The page has room for all cues, so there are no more.
            let page = Rows::new(rows).list_out(from, 0, &mut self.page)?;
            links.extend(page.cues.iter().map(|to| Link { from, to: *to, label: *label }));
        }
        links.sort_unstable();
        Ok(links)
    }
}

/// The rows that are not links of another label, as numbers.
fn with_label(rows: &[Row], label: u32) -> Vec<u32> {
    let kept = rows.iter().filter(|row| row[1] != LINK || row[2] == label);
    kept.flatten().copied().collect()
}
