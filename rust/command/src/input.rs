//! Reading the bytes of a show file or a wait file, or of standard input.

use std::ffi::OsStr;
use std::fs::File;
use std::io::{self, Read};
use std::path::Path;

use crate::problem::Problem;
use crate::words::shown;

/// The word for standard input in the place of a file.
pub const STANDARD: &str = "-";

/// Bytes of a show file that are read at most: one over the limit is enough to have it refused.
const MOST: u64 = show::MAX_FILE as u64 + 1;

/// Bytes of a wait file that are read at a time.
const PART: u64 = 1 << 16;
/// Bytes of the longest line of a wait file: two values of five digits, a comma and a line feed.
const LONGEST: usize = 12;

/// A file as far as it was read.
#[derive(Debug)]
pub struct Input {
    /// Its name in messages.
    pub name: String,
    /// What a picture of it is called.
    pub title: String,
    /// Its bytes: of a show file no more than one over the limit; of a wait file all, or at least its beginning
    /// up to a line that is too long to be one.
    pub bytes: Vec<u8>,
    /// How many bytes it has, where that is known without reading them.
    pub size: Option<u64>,
}

impl Input {
    /// Reads the show file of this name, or standard input.
    pub fn read(file: &OsStr) -> Result<Input, Problem> {
        Input::read_by(file, limited)
    }

    /// Reads the wait file of this name, or standard input.
    pub fn read_waits(file: &OsStr) -> Result<Input, Problem> {
        Input::read_by(file, unlimited)
    }

    fn read_by(file: &OsStr, bytes: Bytes) -> Result<Input, Problem> {
        let standard = file == STANDARD;
        let name = match shown(file) {
            _ if standard => "standard input".to_string(),
            name if name.is_empty() => "''".to_string(),
            name => name,
        };
        let (bytes, size) = match standard {
            true => bytes(&mut io::stdin().lock()).map(|bytes| (bytes, None)),
            false => of_file(file, bytes),
        }
        .map_err(|error| Problem::Failed { name: name.clone(), said: error.to_string() })?;
        let stem = Path::new(file).file_stem().filter(|_| !standard);
        let title = stem.map_or(name.clone(), shown);
        Ok(Input { name, title, bytes, size })
    }
}

/// A way to read as many bytes as are needed.
type Bytes = fn(&mut dyn Read) -> io::Result<Vec<u8>>;

fn of_file(file: &OsStr, bytes: Bytes) -> io::Result<(Vec<u8>, Option<u64>)> {
    let mut file = File::open(file)?;
    let known = file.metadata()?;
    let bytes = bytes(&mut file)?;
    let sized = known.is_file() && known.len() >= bytes.len() as u64;
    Ok((bytes, sized.then_some(known.len())))
}

fn limited(from: &mut dyn Read) -> io::Result<Vec<u8>> {
    let mut bytes = Vec::new();
    from.take(MOST).read_to_end(&mut bytes)?;
    Ok(bytes)
}

/// Reads to the end, as a wait file has no limit. Behind a line that is longer than any can be, nothing
/// counts: it is the first that is malformed, or one before it is.
fn unlimited(from: &mut dyn Read) -> io::Result<Vec<u8>> {
    let mut bytes = Vec::new();
    while from.take(PART).read_to_end(&mut bytes)? > 0 {
        let line = bytes.rsplit(|byte| *byte == b'\n').next().unwrap_or_default();
        if line.len() >= LONGEST {
            break;
        }
    }
    Ok(bytes)
}
