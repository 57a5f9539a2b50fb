//! The waits of a wait file, label by label, each as the library has it.
//!
//! The library gives the sum of waits between two cues. So it is asked about a show of two cues and one
//! link between them, once for each label: that sum is the wait of the label.

use show::{Refused, Rows, MAX_FOLLOWED, WORK_LEN};

use crate::blocks::{Row, LINK, OPENING};

/// The wait of each label that is followed, in tenths of a second.
pub struct Waits {
    /// The wait of label 1 is first.
    tenths: Vec<u64>,
}

impl Waits {
    /// The waits of a file that the library accepts.
    pub fn of_file(file: &[u8]) -> Result<Waits, Refused> {
        let mut work = vec![0; WORK_LEN];
        let mut wait = |label: u32| {
            let rows = two_cues(label);
            Rows::new(rows.as_flattened()).quickest(1, 2, file, &mut work)
        };
        // A link leads from the one cue to the other, so there is always a sum.
        let tenths = (1..=MAX_FOLLOWED).map(|label| Ok(wait(label)?.unwrap_or(0)));
        Ok(Waits { tenths: tenths.collect::<Result<_, Refused>>()? })
    }

    /// The wait of a label; none for that of a note.
    pub fn of(&self, label: u32) -> Option<u64> {
        self.tenths.get(label.checked_sub(1)? as usize).copied()
    }
}

/// Two own cues and a link with this label from the first to the second.
fn two_cues(label: u32) -> [Row; 2] {
    [[0, OPENING, 0, 2, 0, 0, 0, 0, 0, 0, 0], [0, LINK, label, 1, 2, 0, 0, 0, 0, 0, 0]]
}
