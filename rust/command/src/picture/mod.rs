//! Pictures of an accepted show as Graphviz text: its blocks, and what is left when all uses are
//! replaced.

mod blocks;
mod dot;
mod unfolded;

use show::{Loaded, Refused};

use crate::blocks::{of_rows, rows_of, Link};
use crate::links::{Labelled, MOST_CUES};
use crate::waits::Waits;
use crate::words::Grouped;

#[cfg(test)]
mod tests;

/// More links than this are no picture any more.
pub const MOST_LINKS: usize = 10_000;

/// Why a picture is not drawn.
#[derive(Debug, PartialEq, Eq)]
pub enum Undrawn {
    /// It would be too large.
    TooLarge(String),
    /// The library refuses a question that it needs.
    Refused(Refused),
}

impl From<Refused> for Undrawn {
    fn from(refused: Refused) -> Undrawn {
        Undrawn::Refused(refused)
    }
}

/// The blocks of a show, with the waits of their links where there are any to draw.
pub fn blocks(title: &str, show: &Loaded, waits: Option<&Waits>) -> String {
    blocks::drawn(title, &of_rows(rows_of(show)), waits)
}

/// The unfolded show: its copies and its links, or why it is not drawn.
pub fn unfolded(title: &str, show: &Loaded, waits: Option<&Waits>) -> Result<String, Undrawn> {
    if show.cues > MOST_CUES {
        return Err(too_many(format!("{} cues", Grouped(show.cues.into())), MOST_CUES as usize));
    }
    Ok(unfolded::drawn(title, &of_rows(rows_of(show)), &links(show)?, waits))
}

/// The links, as long as they are not too many.
fn links(show: &Loaded) -> Result<Vec<Link>, Undrawn> {
    let mut labelled = Labelled::new(rows_of(show), show.cues);
    let mut links = Vec::new();
    for cue in 1..=show.cues {
        links.extend(labelled.from(cue)?);
        if links.len() > MOST_LINKS {
            return Err(too_many("the links".to_string(), MOST_LINKS));
        }
    }
    Ok(links)
}

fn too_many(what: String, most: usize) -> Undrawn {
    let most = Grouped(most as u64);
    Undrawn::TooLarge(format!("{what} are too many to draw; at most {most} are drawn"))
}
