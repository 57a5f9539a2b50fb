//! A question about a file: asked of the library, and its answer printed.

use std::ffi::OsStr;
use std::io::Write;

use show::{Linked, Loaded, Refused, Rows, MAX_FILE, PATH_LEN, ROWS_LEN, WORK_LEN};

use crate::blocks::rows_of;
use crate::commands::Question;
use crate::explain::{self, Explained, NAMES};
use crate::input::Input;
use crate::links::{Labelled, MOST_CUES};
use crate::picture::{self, Undrawn};
use crate::problem::Problem;
use crate::waits::Waits;
use crate::way::Way;
use crate::words::Clock;

/// A show that the library accepts, and the file that it was read from.
struct Show<'a> {
    input: &'a Input,
    way: Way,
    read: Loaded<'a>,
}

/// One of the two questions that a list answers.
type Lists<'a> = fn(&Rows<'a>, u32) -> Result<Linked<'a>, Refused>;

/// Prints the answer to a question about a file that is read so.
pub fn of_input(
    input: &Input,
    way: Way,
    question: &Question,
    out: &mut impl Write,
) -> Result<(), Problem> {
    let mut room = vec![0; ROWS_LEN];
    let read = way
        .read(&input.bytes, &mut room)
        .map_err(|said| refused(input, explain::file(&input.bytes, input.size, way, said)))?;
    Show { input, way, read }.answer(question, out)
}

fn refused(input: &Input, explained: Explained) -> Problem {
    Problem::Refused { name: input.name.clone(), said: explained.to_string() }
}

impl<'a> Show<'a> {
    fn answer(&self, question: &Question, out: &mut impl Write) -> Result<(), Problem> {
        let Loaded { rows, blocks, cues } = self.read;
        match *question {
            Question::Check => {
                writeln!(out, "blocks,rows,cues\n{blocks},{},{cues}", rows_of(&self.read).len())?
            }
            Question::Count => writeln!(out, "cues\n{cues}")?,
            Question::Locate(n) => self.locate(n, out)?,
            Question::Number { ref path, own } => {
                let number = rows.number(path, own).map_err(|said| self.no_path(said, path, own));
                writeln!(out, "cue\n{}", number?)?
            }
            Question::Out(cue) => list("to", self.linked(Rows::linked_out, cue)?, out)?,
            Question::In(cue) => list("from", self.linked(Rows::linked_in, cue)?, out)?,
            Question::Fewest(s, t) => self.fewest(s, t, out)?,
            Question::Row(s, t) => self.row(s, t, out)?,
            Question::Quickest { ref waits, s, t } => {
                self.quickest(&Input::read_waits(waits)?, s, t, out)?
            }
            Question::Links => self.links(out)?,
            Question::Write => self.write(out)?,
            Question::Picture { unfolded, ref waits } => {
                let waits = waits.as_deref().map(waits_of).transpose()?;
                out.write_all(self.picture(unfolded, waits.as_ref())?.as_bytes())?
            }
        }
        Ok(())
    }

    fn locate(&self, n: u32, out: &mut impl Write) -> Result<(), Problem> {
        let mut path = [0; PATH_LEN];
        let cue = self.read.rows.locate(n, &mut path).map_err(|said| self.no_cue(said, &[n]))?;
        let (depth, steps) = (cue.path.len(), joined(cue.path));
        Ok(writeln!(out, "depth,block,own,path\n{depth},{},{},{steps}", cue.block, cue.own)?)
    }

    fn linked(&self, asked: Lists<'a>, cue: u32) -> Result<Linked<'a>, Problem> {
        asked(&self.read.rows, cue).map_err(|said| self.no_cue(said, &[cue]))
    }

    fn fewest(&self, s: u32, t: u32, out: &mut impl Write) -> Result<(), Problem> {
        let fewest = self.read.rows.fewest(s, t, &mut vec![0; WORK_LEN]);
        match fewest.map_err(|said| self.no_cue(said, &[s, t]))? {
            Some(steps) => writeln!(out, "fewest\n{steps}")?,
            None => writeln!(out, "fewest\nnone")?,
        }
        Ok(())
    }

    /// Prints the quickest way, in tenths of a second and as it stands on a clock.
    fn quickest(&self, waits: &Input, s: u32, t: u32, out: &mut impl Write) -> Result<(), Problem> {
        let quickest = self.read.rows.quickest(s, t, &waits.bytes, &mut vec![0; WORK_LEN]);
        let quickest = quickest.map_err(|said| match said {
            Refused::NoSuchCue => self.no_cue(said, &[s, t]),
            _ => refused(waits, explain::waits(&waits.bytes, said)),
        });
        match quickest? {
            Some(tenths) => writeln!(out, "quickest,time\n{tenths},{}", Clock(tenths))?,
            None => writeln!(out, "quickest,time\nnone,-")?,
        }
        Ok(())
    }

    fn row(&self, s: u32, t: u32, out: &mut impl Write) -> Result<(), Problem> {
        let mut path = [0; PATH_LEN];
        let origin =
            self.read.rows.row(s, t, &mut path).map_err(|said| self.no_link(said, s, t))?;
        let (row, depth, steps) = (origin.row, origin.path.len(), joined(origin.path));
        let values = rows_of(&self.read)[row as usize - 1].map(|value| value.to_string());
        let line = self.way.line(row as usize).map_or("-".to_string(), |line| line.to_string());
        writeln!(out, "row,line,depth,path,{NAMES}")?;
        Ok(writeln!(out, "{row},{line},{depth},{steps},{}", values.join(","))?)
    }

    /// The file that the library writes. It always has room, so the rows are never refused here.
    fn write(&self, out: &mut impl Write) -> Result<(), Problem> {
        let mut file = vec![0; MAX_FILE];
        let written = self.read.rows.write(&mut file).map_err(|said| self.no_cue(said, &[]))?;
        Ok(out.write_all(written)?)
    }

    /// What the unfolding program prints.
    fn links(&self, out: &mut impl Write) -> Result<(), Problem> {
        let cues = self.read.cues;
        if cues > MOST_CUES {
            return Ok(writeln!(out, "cues\n{cues}")?);
        }
        let mut labelled = Labelled::new(rows_of(&self.read), cues);
        writeln!(out, "from,to,label")?;
        for cue in 1..=cues {
            for link in labelled.from(cue).map_err(|said| self.no_cue(said, &[cue]))? {
                writeln!(out, "{},{},{}", link.from, link.to, link.label)?;
            }
        }
        Ok(())
    }

    fn picture(&self, unfolded: bool, waits: Option<&Waits>) -> Result<String, Problem> {
        let title = &self.input.title;
        if !unfolded {
            return Ok(picture::blocks(title, &self.read, waits));
        }
        picture::unfolded(title, &self.read, waits).map_err(|undrawn| match undrawn {
            Undrawn::TooLarge(said) => Problem::Failed { name: self.input.name.clone(), said },
            Undrawn::Refused(said) => self.no_cue(said, &[]),
        })
    }

    /// The refusal of a question about these cues.
    fn no_cue(&self, said: Refused, cues: &[u32]) -> Problem {
        refused(self.input, explain::cues(said, cues, self.read.cues))
    }

    /// The refusal of a question about a link between these cues.
    fn no_link(&self, said: Refused, s: u32, t: u32) -> Problem {
        let back = self.read.rows.row(t, s, &mut [0; PATH_LEN]).is_ok();
        refused(self.input, explain::link(said, s, t, self.read.cues, back))
    }

    /// The refusal of a question about this path and own cue.
    fn no_path(&self, said: Refused, path: &[u32], own: u32) -> Problem {
        refused(self.input, explain::path(said, rows_of(&self.read), path, own))
    }
}

/// The waits of the file of this name.
fn waits_of(file: &OsStr) -> Result<Waits, Problem> {
    let input = Input::read_waits(file)?;
    Waits::of_file(&input.bytes).map_err(|said| refused(&input, explain::waits(&input.bytes, said)))
}

/// A list of cues, one in a line.
fn list(heading: &str, linked: Linked, out: &mut impl Write) -> Result<(), Problem> {
    writeln!(out, "{heading}")?;
    for cue in linked {
        writeln!(out, "{cue}")?;
    }
    Ok(())
}

/// A path as one value; the empty one is `-`.
fn joined(path: &[u32]) -> String {
    match path {
        [] => "-".to_string(),
        steps => steps.iter().map(u32::to_string).collect::<Vec<_>>().join("."),
    }
}
