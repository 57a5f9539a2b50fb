//! The limits of a show, and the two shapes in which every question is answered.

/// Values in a row.
pub const COLUMNS: usize = 11;
/// Columns of a use that can name a cue.
pub const JOINS: usize = 8;
/// Own cues of a block.
pub const OWN: usize = 255;
/// The highest label of a link that a chain may have; one with a higher label is a note.
pub const FOLLOWED: u32 = 254;
/// The longest wait of a label, in tenths of a second.
pub const WAIT: u32 = 6_000;
/// Blocks of a show.
pub const BLOCKS: usize = 128;
/// Rows of a show.
pub const ROWS: usize = 1024;
/// Blocks that come with the desk.
pub const DESK_BLOCKS: usize = 16;
/// Rows of the blocks that come with the desk.
pub const DESK_ROWS: usize = 168;
/// Rows of a file that is read behind those of the desk.
pub const OWN_ROWS: usize = ROWS - DESK_ROWS;
/// Bytes of a file.
pub const BYTES: usize = 65_536;
/// Cues of a block.
pub const TOTAL: u64 = 2_147_483_647;
/// Steps of a path.
pub const PATH: usize = 127;
/// Numbers in the work area of the fewest question, and of the quickest, where they have 64 bits.
pub const WORK: usize = 16_384;
/// Numbers in the summary of one block.
pub const STRIDE: usize = JOINS * JOINS;
/// Numbers in `given`.
pub const GIVEN: usize = 3;
/// The summary of a pair of joins with no chain.
pub const NO_CHAIN: u32 = u32::MAX;
/// The highest number of a refusal.
pub const REFUSALS: usize = 17;
/// The first line of a show file.
pub const NAMES: &[u8] = b"block,kind,label,a,b,c,d,e,f,g,h\n";
/// The first line of a wait file.
pub const WAIT_NAMES: &[u8] = b"label,wait\n";

/// One row: block, kind, label, then the columns a to h.
pub type Row = [u32; COLUMNS];

/// Why a question was not answered: the number of the refusal and its place.
#[derive(Clone, Copy, Debug, PartialEq, Eq)]
pub struct Refusal {
    pub number: u32,
    pub place: u32,
}

impl Refusal {
    /// A refusal at a row, a line or 0.
    pub fn new(number: u32, place: usize) -> Refusal {
        let place = u32::try_from(place).expect("places are small");
        Refusal { number, place }
    }

    /// A refusal at a line of a file that may have any number of them: a line that 32 bits do not
    /// hold is told as the largest number that they do.
    pub fn at_line(number: u32, line: u64) -> Refusal {
        Refusal { number, place: u32::try_from(line).unwrap_or(u32::MAX) }
    }

    /// The value that the C function returns for it.
    pub fn returned(self) -> u64 {
        u64::from(self.number) << 32 | u64::from(self.place)
    }
}

/// The value that the C function returns for an answer or a refusal.
pub fn returned(result: Result<(), Refusal>) -> u64 {
    result.map_or_else(Refusal::returned, |()| 0)
}
